/* The header held to the library: an IN transfer, a row of TDs and control transfers, from submission to guest memory or device, and a capture. Exit status 0 where all is as document 01
 * has it, and otherwise a line that says what is not. */
#include "polvihe.h"
#include <stdio.h>
#include <stdlib.h>
#include <string.h>

static void expect(int holds, const char *what) {
    if (!holds) {
        fprintf(stderr, "transfer.c: not so: %s\n", what);
        exit(1);
    }
}
#define EXPECT(claim) expect(claim, #claim)

static uint8_t log_bytes[POLVIHE_LOG_LENGTH], collect[POLVIHE_COLLECT_LENGTH], memory[0x600], data[600];

/* The IN transfer's completion and carry-out in one call, on copies: what two calls leave after it. */
static uint8_t delivered_log[POLVIHE_LOG_LENGTH], delivered[0x600];

static void deliver(uint8_t *block, size_t length) {
    memcpy(delivered_log, log_bytes, sizeof log_bytes);
    /* A byte too few for the second Normal: nothing changes. */
    EXPECT(polvihe_in_complete_and_carry_out(delivered_log, sizeof delivered_log, block, length, POLVIHE_SUCCESS, data, sizeof data, 0x8000, delivered, sizeof data - 1, 0,
                                             NULL, 0).number == 11);
    EXPECT(memcmp(delivered_log, log_bytes, sizeof log_bytes) == 0 && memcmp(delivered, memory, sizeof memory) == 0);
    struct polvihe_completion done = polvihe_in_complete_and_carry_out(delivered_log, sizeof delivered_log, block, length, POLVIHE_SUCCESS, data, sizeof data, 0x8000,
                                                                       delivered, sizeof data, 0x9000, NULL, 0);
    EXPECT(done.number == 0 && done.result == 0 && done.records == 4 && memcmp(delivered, data, sizeof data) == 0);
}

/* Record number i of a log. */
static struct polvihe_log_record record_of(const uint8_t *log, size_t i) {
    struct polvihe_log_record record;
    memcpy(&record, log + 32 * i, sizeof record);
    return record;
}

/* Document 01's TD T, Success, 600 bytes. */
static void in_transfer(void) {
    size_t length = polvihe_in_block_length();
    uint8_t *block = malloc(length);
    EXPECT(block != NULL);
    EXPECT(polvihe_in_create(block, length, 32, 2, 0) == 12);
    EXPECT(polvihe_in_create(block, length - 1, 3, 2, 0) == 1);
    EXPECT(polvihe_in_create(block, length, 3, 2, 0) == 0);
    for (int i = 0; i < 3; i++) {
        uint8_t flags = POLVIHE_INTERRUPT_ON_SHORT | (i == 2 ? POLVIHE_INTERRUPT_ON_COMPLETION : POLVIHE_CHAIN);
        uint8_t raw[16];
        EXPECT(polvihe_encode_trb(1, flags, 0x8000 + 512 * i, 512, raw, sizeof raw) == 0);
        struct polvihe_trb trb = polvihe_decode_trb(raw);
        EXPECT(trb.kind == 1 && trb.flags == flags && trb.transfer_length == 512);
        struct polvihe_answered submitted = polvihe_in_submit(log_bytes, sizeof log_bytes, block, length, trb.kind, trb.flags, 0x1000 + 16 * i, trb.value,
                                                              trb.transfer_length, 0x8000, sizeof memory, 0, 0);
        EXPECT(submitted.number == 0 && submitted.count == (i == 2));
        if (i < 2) EXPECT(polvihe_in_complete(log_bytes, sizeof log_bytes, block, length, POLVIHE_NONE, 0).number == 0);
    }
    struct polvihe_log_record request = record_of(log_bytes, 0);
    EXPECT(sizeof request == 32 && request.kind == 3 && request.endpoint_id == 3 && request.slot_id == 2 && request.address == 0x1000 && request.length == 1536);
    EXPECT(polvihe_in_complete(log_bytes, sizeof log_bytes, block, length, POLVIHE_NONE, 0).number == 8);
    for (size_t k = 0; k < sizeof data; k++) data[k] = (uint8_t)(11 * k + 5);
    uint8_t *copy = malloc(length);
    EXPECT(copy != NULL);
    memcpy(copy, block, length);
    deliver(copy, length);
    struct polvihe_completion done = polvihe_in_complete(log_bytes, sizeof log_bytes, block, length, POLVIHE_SUCCESS, sizeof data);
    EXPECT(done.number == 0 && done.result == 0 && done.records == 4);
    EXPECT(polvihe_carry_out(log_bytes, 32 * done.records, data, sizeof data, 0x8000, memory, sizeof memory, 0, NULL, 0) == 0);
    EXPECT(memcmp(memory, data, sizeof data) == 0 && memory[600] == 0);
    EXPECT(memcmp(copy, block, length) == 0 && memcmp(delivered_log, log_bytes, sizeof log_bytes) == 0 && memcmp(delivered, memory, sizeof memory) == 0);
    free(copy);
    static const char expected[] = "1 0 0 3 2 8000 512 0 0000000000000000\n"
                                   "1 0 0 3 2 8200 88 512 0000000000000000\n"
                                   "2 13 0 3 2 1010 424 0 0000000000000000\n"
                                   "2 13 0 3 2 1020 424 0 0000000000000000\n";
    static uint8_t text[4096];
    struct polvihe_answered printed = polvihe_print(log_bytes, 32 * done.records, text, sizeof text);
    EXPECT(printed.number == 0 && printed.count == strlen(expected) && memcmp(text, expected, printed.count) == 0);
    EXPECT(polvihe_in_cancel(block, length) == 0);
    free(block);
}

/* Two TDs T in a row: 600 bytes for the first, a stall behind 512 for the second. */
static void row_of_tds(void) {
    size_t length = polvihe_in_block_length();
    uint8_t *block = malloc(length), *before = malloc(length);
    EXPECT(block != NULL && before != NULL);
    EXPECT(polvihe_in_create(block, length, 3, 2, 0) == 0);
    memcpy(before, block, length);
    struct polvihe_row_trb row[6];
    EXPECT(sizeof row == 6 * 24 && sizeof(struct polvihe_row_result) == 8);
    for (int i = 0; i < 6; i++) {
        uint8_t flags = POLVIHE_INTERRUPT_ON_SHORT | (i % 3 == 2 ? POLVIHE_INTERRUPT_ON_COMPLETION : POLVIHE_CHAIN);
        row[i] = (struct polvihe_row_trb){.address = 0x1000 + 16 * i, .value = 0x8000 + 512 * (i % 3), .transfer_length = 512, .kind = 1, .flags = flags};
    }
    const struct polvihe_row_result results[2] = {{.status = POLVIHE_SUCCESS, .length = 600}, {.status = POLVIHE_STALL, .length = 512}};
    static uint8_t row_log[POLVIHE_ROW_LOG_LENGTH], joined[1112];
    for (size_t k = 0; k < sizeof joined; k++) joined[k] = (uint8_t)(7 * k + 3);
    struct polvihe_row_completion done = polvihe_in_complete_row(row_log, sizeof row_log, block, length, row, sizeof row, results, sizeof results, sizeof joined,
                                                                 0x8000, sizeof memory, 0, 0);
    EXPECT(done.number == 0 && done.finished == 1 && done.result == 1 && done.code == 6 && done.located && done.address == 0x1040);
    EXPECT(done.records == 9 && memcmp(block, before, length) == 0);
    /* The second TD's request and its write, which starts behind the first one's 600 bytes. */
    struct polvihe_log_record request = record_of(row_log, 5), write = record_of(row_log, 6);
    EXPECT(request.kind == 3 && request.address == 0x1030 && write.kind == 1 && write.start == 600 && write.length == 512);
    EXPECT(polvihe_carry_out(row_log, 32 * done.records, joined, sizeof joined, 0x8000, memory, sizeof memory, 0, NULL, 0) == 0);
    EXPECT(memcmp(memory, joined + 600, 512) == 0 && memcmp(memory + 512, joined + 512, 88) == 0);
    EXPECT(polvihe_in_complete_row(row_log, sizeof row_log, block, length, row, sizeof row - 1, results, sizeof results, sizeof joined, 0x8000, sizeof memory, 0, 0).number == 15);
    EXPECT(polvihe_in_complete_row(row_log, sizeof row_log, block, length, row, sizeof row, results, sizeof results + 1, sizeof joined, 0x8000, sizeof memory, 0, 0).number == 15);
    EXPECT(polvihe_in_complete_row(row_log, sizeof row_log - 1, block, length, row, sizeof row, results, sizeof results, sizeof joined, 0x8000, sizeof memory, 0, 0).number == 1);
    EXPECT(polvihe_in_complete_row(row_log, sizeof row_log, block, length - 1, row, sizeof row, results, sizeof results, sizeof joined, 0x8000, sizeof memory, 0, 0).number == 1);
    free(block), free(before);
}

/* Setup 80 06, Data IN 18, Status; the device stalls: for release 5 the event is at the Data TRB. */
static void control_transfer(void) {
    size_t length = polvihe_control_block_length();
    uint8_t *block = malloc(length);
    EXPECT(block != NULL);
    EXPECT(polvihe_control_create(block, length, 3, 2, 5) == 0);
    static const struct { uint8_t kind; uint64_t value; uint32_t length; } trbs[] = {{2, 0x0040000001000680, 0}, {3, 0x8000, 18}, {4, 0, 0}};
    for (int i = 0; i < 3; i++) {
        struct polvihe_answered submitted = polvihe_control_submit(log_bytes, sizeof log_bytes, collect, sizeof collect, block, length, trbs[i].kind, 0, 0x1000 + 16 * i,
                                                                   trbs[i].value, trbs[i].length, 0x8000, memory, sizeof memory, 0, NULL, 0);
        EXPECT(submitted.number == 0 && submitted.count == (i == 2));
        if (i < 2) EXPECT(polvihe_control_complete(log_bytes, sizeof log_bytes, block, length, POLVIHE_NONE, 0).number == 0);
    }
    struct polvihe_log_record request = record_of(log_bytes, 0);
    EXPECT(request.kind == 3 && request.length == 18 && request.request_type == 0x80 && request.request == 6 && request.value == 0x100 && request.index == 0);
    struct polvihe_completion done = polvihe_control_complete(log_bytes, sizeof log_bytes, block, length, POLVIHE_STALL, 0);
    EXPECT(done.number == 0 && done.result == 1 && done.code == 6 && done.located == 0 && done.records == 1);
    struct polvihe_log_record event = record_of(log_bytes, 0);
    EXPECT(event.kind == 2 && event.code == 6 && event.event_data == 0 && event.address == 0x1010);
    EXPECT(polvihe_control_cancel(block, length) == 0);
    free(block);
}

/* Setup 00 09, Data OUT of 12 immediate bytes, Status: eight bytes are collected for the device. */
static void control_out_transfer(void) {
    size_t length = polvihe_control_block_length();
    uint8_t *block = malloc(length);
    EXPECT(block != NULL);
    EXPECT(polvihe_control_create(block, length, 3, 0, 4) == POLVIHE_ID_OUT_OF_RANGE);
    EXPECT(polvihe_control_complete(log_bytes, sizeof log_bytes, block, length, POLVIHE_NONE, 0).number == POLVIHE_UNSOUND_BLOCK);
    EXPECT(polvihe_control_create(block, length, 3, 2, 4) == 0);
    static const struct { uint8_t kind, flags; uint64_t value; uint32_t length; } trbs[] = {{2, 0, 0x0900, 0}, {3, POLVIHE_IMMEDIATE_DATA, 0x1122334455667788, 12}, {4, 0, 0, 0}};
    for (int i = 0; i < 3; i++) {
        uint8_t raw[16];
        EXPECT(polvihe_encode_trb(trbs[i].kind, trbs[i].flags, trbs[i].value, trbs[i].length, raw, sizeof raw) == 0);
        EXPECT(polvihe_control_submit_raw(log_bytes, sizeof log_bytes, collect, sizeof collect, block, length, raw, 0x1000 + 16 * i, 0x8000, memory, sizeof memory, 0, NULL, 0).number == 0);
        if (i < 2) EXPECT(polvihe_control_complete(log_bytes, sizeof log_bytes, block, length, POLVIHE_NONE, 0).number == 0);
    }
    uint64_t collected;
    memcpy(&collected, block + POLVIHE_CONTROL_COLLECTED, sizeof collected);
    static const uint8_t expected[] = {0x88, 0x77, 0x66, 0x55, 0x44, 0x33, 0x22, 0x11};
    EXPECT(record_of(log_bytes, 0).kind == 3 && record_of(log_bytes, 0).length == 0 && collected == sizeof expected && memcmp(collect, expected, sizeof expected) == 0);
    EXPECT(polvihe_control_complete(log_bytes, sizeof log_bytes, block, length, POLVIHE_SUCCESS_OUT, 0).number == 0);
    free(block);
}

/* A capture of the IN transfer's completion, read again. */
static void capture(void) {
    static uint8_t file[24 + 64 + sizeof data];
    struct polvihe_answered head = polvihe_write_file_header(file, sizeof file);
    EXPECT(head.number == 0 && head.count == 24);
    struct polvihe_answered late = polvihe_write_in_completion(file + 24, sizeof file - 24, 1, 5, 7, 1000000, 3, false, 0x1000, POLVIHE_STALL, data, sizeof data);
    EXPECT(late.number == 24 && late.count == 0);
    struct polvihe_answered written = polvihe_write_in_completion(file + 24, sizeof file - 24, 1, 5, 7, 8, 3, false, 0x1000, POLVIHE_STALL, data, sizeof data);
    EXPECT(written.number == 0 && written.count == sizeof file - 24);
    EXPECT(polvihe_read_capture(file, sizeof file).count == 1);
    struct polvihe_record record = polvihe_read_record(file, sizeof file, 24);
    EXPECT(record.number == 0 && record.seconds == 7 && record.microseconds == 8 && record.id == 0x1000 && record.event_type == 'C');
    EXPECT(record.status == (uint32_t)-32 && record.endpoint_address == 0x81 && record.bus_number == 1 && record.device_address == 5);
    EXPECT(record.payload_length == sizeof data && memcmp(file + record.payload_start, data, sizeof data) == 0 && record.next == sizeof file);
    EXPECT(polvihe_read_capture(file, sizeof file - 1).number == 22);
}

int main(void) {
    in_transfer();
    row_of_tds();
    control_transfer();
    control_out_transfer();
    capture();
    puts("transfer.c: an IN transfer, a row of TDs and control transfers IN and OUT, as documents 01 and 02 have them, and a capture read again");
    return 0;
}
