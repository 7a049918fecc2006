/* Polvihe for C: the functions of the static library that `rt lib` makes in crates/polvihe. A lent buffer is a pointer and a length; nothing of it is kept behind the call,
 * and buffers that are written share no byte with another. Every call asks its numbered questions first and answers the number of the first no, or 0. After a no nothing has
 * changed, neither block nor log nor any other lent byte; a creation that is refused with 12 alone leaves a block, with which every call is refused with 2.
 * The numbers stand at each function in the order in which they are asked. docs/HAL.md says what a caller does about each. */
#ifndef POLVIHE_H
#define POLVIHE_H

#include <stdbool.h>
#include <stddef.h>
#include <stdint.h>

#ifdef __cplusplus
extern "C" {
#endif

/* What said no. */
enum {
    POLVIHE_BUFFER_TOO_SHORT = 1,        /* a lent log, collect buffer, block or text is shorter than the call asks for */
    POLVIHE_UNSOUND_BLOCK = 2,           /* the block is none that creation made, or its creation was refused */
    POLVIHE_OUT_OF_TURN = 3,             /* submission and completion alternate: the other call is due; of a row, that the block holds TRBs */
    POLVIHE_TRANSFER_TOO_LONG = 4,       /* a transfer length above 131,071 */
    POLVIHE_TOO_MANY_HELD = 5,           /* more than 512 TRBs would be held */
    POLVIHE_OUTSIDE_GUEST_MEMORY = 6,    /* the TRB's buffer does not lie in one region of guest memory */
    POLVIHE_TOO_MUCH_COLLECTED = 7,      /* a control OUT transfer would have more than 65,535 bytes */
    POLVIHE_DEVICE_RESULT_MISMATCH = 8,  /* a device result is given and no request was logged, or the other way round */
    POLVIHE_DATA_TOO_LONG = 9,           /* the device's data is longer than 67,108,352 bytes */
    POLVIHE_MALFORMED_LOG = 10,          /* the log is no multiple of 32 bytes, or a record's kind is none of 1, 2 and 3 */
    POLVIHE_WRITE_OUT_OF_RANGE = 11,     /* a write lies outside the device's data or guest memory */
    POLVIHE_ID_OUT_OF_RANGE = 12,        /* the endpoint id is not 1 to 31, or the slot id is 0 */
    POLVIHE_REGIONS_OVERLAP = 13,        /* the two regions of guest memory share an address */
    POLVIHE_OUTPUT_TOO_SHORT = 14,       /* the output cannot take the whole file or record */
    POLVIHE_MALFORMED_ROW = 15,          /* too many TRBs, one that an IN endpoint does not hold, TDs that are not whole, or results that do not fit TDs and data */
    POLVIHE_NOT_A_CAPTURE = 17,          /* the file is truncated, of another format, or has a length that does not fit */
    POLVIHE_NOT_CONVERTIBLE = 18,        /* a record is isochronous, or has an added field that is not zero */
    POLVIHE_LINK_TYPES_DIFFER = 19,      /* of the two captures */
    POLVIHE_TIMES_GO_BACKWARDS = 20,     /* in one of the captures */
    POLVIHE_IMMEDIATE_INPUT = 21,        /* immediate data in a TRB that takes data from the device */
    POLVIHE_UNKNOWN_CAPTURE = 22,        /* the capture is none that polvihe_write_.. makes, or no record stands there */
    POLVIHE_NOT_ENCODABLE = 23,          /* an Isoch or Unrecognized TRB has no fields to encode */
    POLVIHE_CAPTURE_OUT_OF_RANGE = 24    /* microseconds above 999,999, or a record longer than the snap length */
};

/* A record of a log, 32 bytes, as it stands there on a little-endian machine; a log's records are in the order in which they take effect.
 * kind 1: `length` bytes of the device's data, from `start` on, are written to guest memory at `address`.
 * kind 2: a transfer event for the guest: completion code; `address` is the TRB's and `length` the residual or, where event_data is 1, the event data and the EDTLA.
 * kind 3: a request to the device for `length` bytes, `address` naming its first TRB; on control with the fields of its Setup TRB. */
struct polvihe_log_record {
    uint8_t kind, code, event_data, endpoint_id, slot_id, zero[3];
    uint64_t address;
    uint32_t length, start;
    uint8_t request_type, request;
    uint16_t value, index;
    uint8_t zeros[2];
};

/* The number of the question that said no, or 0, and how many records or bytes the call made. */
struct polvihe_answered {
    uint32_t number;
    size_t count;
};

/* Of a completion: result 0 Ok, 1 Stall, 2 transaction error, 3 disconnect, 4 TRB error, with its completion code; where `located` is 1, the
 * address and the cycle bit of the TRB at which the endpoint halts. */
struct polvihe_completion {
    uint32_t number;
    uint8_t result;
    uint8_t code;
    uint8_t located;
    uint8_t cycle_bit;
    size_t records;
    uint64_t address;
};

/* Of a row of TDs: as a completion, and how many TDs were finished well. */
struct polvihe_row_completion {
    uint32_t number;
    uint8_t result;
    uint8_t code;
    uint8_t located;
    uint8_t cycle_bit;
    size_t finished;
    size_t records;
    uint64_t address;
};

/* A TRB of a row, 24 bytes: its address on the ring; data pointer or event data; transfer length; xHCI's type; the flags below. */
struct polvihe_row_trb {
    uint64_t address, value;
    uint32_t transfer_length;
    uint8_t kind, flags, zero[2];
};

/* What the device gave for a TD of a row, 8 bytes: POLVIHE_SUCCESS to POLVIHE_DISCONNECT, any other number being a transaction error; so many
 * bytes of the joined data. POLVIHE_SUCCESS and 0 bytes for a TD without a Normal TRB. */
struct polvihe_row_result {
    uint8_t status, zero[3];
    uint32_t length;
};

/* A decoded TRB: xHCI's type, or 0 where it is unrecognized; the flags below; data pointer, event data or setup bytes; transfer length. */
struct polvihe_trb {
    uint8_t kind;
    uint8_t flags;
    uint32_t transfer_length;
    uint64_t value;
};

enum {
    POLVIHE_CYCLE = 1,
    POLVIHE_CHAIN = 2,
    POLVIHE_INTERRUPT_ON_COMPLETION = 4,
    POLVIHE_INTERRUPT_ON_SHORT = 8,
    POLVIHE_IMMEDIATE_DATA = 16,
    POLVIHE_DIRECTION = 32
};

/* What the device answered: POLVIHE_SUCCESS_OUT is for control OUT alone, POLVIHE_NONE where no request was logged. */
enum {
    POLVIHE_SUCCESS = 0,
    POLVIHE_STALL = 1,
    POLVIHE_TRANSACTION_ERROR = 2,
    POLVIHE_DISCONNECT = 3,
    POLVIHE_SUCCESS_OUT = 4,
    POLVIHE_NONE = 255
};

/* Bytes that a log, a log of a row and a collect buffer must have. */
enum { POLVIHE_LOG_LENGTH = 32768, POLVIHE_ROW_LOG_LENGTH = 49152, POLVIHE_COLLECT_LENGTH = 65535 };

/* ---- The IN endpoint. Guest memory is two regions, each an address and a length; either may be empty. */

/* Bytes of a block. */
size_t polvihe_in_block_length(void);
/* Makes a fresh block; mode 0 as ported, any other number strict. 0, or 1, 12. */
uint32_t polvihe_in_create(uint8_t *block, size_t block_length, uint8_t endpoint_id, uint8_t slot_id, uint8_t mode);
/* Submits a TRB that stands at `addr` on the ring, by the numbers of struct polvihe_trb. The TRB that ends a TD logs a request where the device is to be asked.
 * 0, or 1, 13, 2, 3, 4, 21, 5, 6. */
struct polvihe_answered polvihe_in_submit(uint8_t *log, size_t log_length, uint8_t *block, size_t block_length, uint8_t kind, uint8_t flags,
                                          uint64_t addr, uint64_t value, uint32_t transfer_length, uint64_t low_base, size_t low_length,
                                          uint64_t high_base, size_t high_length);
/* Completes what was submitted, with the device's result where a request was logged and POLVIHE_NONE, or any number above 3, where none was. The log is to be carried
 * out, with the device's data, before its events are shown. 0, or 1, 2, 3, 8, 9. */
struct polvihe_completion polvihe_in_complete(uint8_t *log, size_t log_length, uint8_t *block, size_t block_length, uint8_t status,
                                              size_t data_length);
/* Completion and carry-out in one call: 0, or 1, 13, 2, 3, 8, 9, 11 with block, log and guest memory as they were. Afterwards every event may be shown. */
struct polvihe_completion polvihe_in_complete_and_carry_out(uint8_t *log, size_t log_length, uint8_t *block, size_t block_length, uint8_t status,
                                                            const uint8_t *data, size_t data_length, uint64_t low_base, uint8_t *low,
                                                            size_t low_length, uint64_t high_base, uint8_t *high, size_t high_length);
/* Empties the block: a submission is due. 0, or 1. */
uint32_t polvihe_in_cancel(uint8_t *block, size_t block_length);
/* A row of whole TDs in one call, on a block that holds nothing: struct polvihe_row_trb for each TRB, struct polvihe_row_result for each TD,
 * lengths in bytes; the log has POLVIHE_ROW_LOG_LENGTH bytes. The block is not changed. A TD that fails ends the row. 0, or 1, 13, 2, 3, 15, then TRB by TRB 4, 21, 6, then 9. */
struct polvihe_row_completion polvihe_in_complete_row(uint8_t *log, size_t log_length, const uint8_t *block, size_t block_length, const void *row,
                                                      size_t row_length, const void *results, size_t results_length, size_t data_length,
                                                      uint64_t low_base, size_t low_length, uint64_t high_base, size_t high_length);

/* ---- The control endpoint. */

/* Bytes of a block. */
size_t polvihe_control_block_length(void);
/* Makes a fresh block for guests of release 5, by any other number 4. 0, or 1, 12. */
uint32_t polvihe_control_create(uint8_t *block, size_t block_length, uint8_t endpoint_id, uint8_t slot_id, uint8_t release);
/* Submits a TRB. The bytes of an OUT transfer are collected in `collect`, the same buffer from Setup to completion: where its request is logged, so many of them as
 * the 64-bit number at byte POLVIHE_CONTROL_COLLECTED of the block says go to the device. 0, or 1, 13, 2, 3, 4, 21, 5, 6, 7. */
struct polvihe_answered polvihe_control_submit(uint8_t *log, size_t log_length, uint8_t *collect, size_t collect_length, uint8_t *block,
                                               size_t block_length, uint8_t kind, uint8_t flags, uint64_t addr, uint64_t value,
                                               uint32_t transfer_length, uint64_t low_base, const uint8_t *low, size_t low_length,
                                               uint64_t high_base, const uint8_t *high, size_t high_length);
/* The same of a TRB's 16 bytes. 0, or 1, 13, 2, 3, 21, 5, 6, 7. */
struct polvihe_answered polvihe_control_submit_raw(uint8_t *log, size_t log_length, uint8_t *collect, size_t collect_length, uint8_t *block,
                                                   size_t block_length, const uint8_t raw[16], uint64_t addr, uint64_t low_base, const uint8_t *low,
                                                   size_t low_length, uint64_t high_base, const uint8_t *high, size_t high_length);
/* Completes what was submitted, as on IN; POLVIHE_NONE, or any number above 4, where no request was logged. 0, or 1, 2, 3, 8, 9. */
struct polvihe_completion polvihe_control_complete(uint8_t *log, size_t log_length, uint8_t *block, size_t block_length, uint8_t status,
                                                   size_t data_length);
/* Changes nothing; to cancel the transfer at the device is left to the caller. 0, or 1. */
uint32_t polvihe_control_cancel(const uint8_t *block, size_t block_length);
enum { POLVIHE_CONTROL_COLLECTED = 32 };

/* ---- Guest memory. */

/* Performs the writes of a log, all or none. 0, or 13, 10, 11. */
uint32_t polvihe_carry_out(const uint8_t *log, size_t log_length, const uint8_t *data, size_t data_length, uint64_t low_base, uint8_t *low,
                           size_t low_length, uint64_t high_base, uint8_t *high, size_t high_length);

/* ---- Raw TRBs, by their 16 bytes in the ring. */

/* The numbers that a submission takes. Bytes that are no TRB are an unrecognized one, kind 0: no bytes are refused. */
struct polvihe_trb polvihe_decode_trb(const uint8_t raw[16]);
/* The bytes of a TRB, written to the start of `raw`. 0, or 1 where `raw` has fewer than 16, 23, 4. */
uint8_t polvihe_encode_trb(uint8_t kind, uint8_t flags, uint64_t value, uint32_t transfer_length, uint8_t *raw, size_t raw_length);

/* ---- Stored logs. */

/* Is it a log? 0, or 10. */
uint32_t polvihe_check_log(const uint8_t *log, size_t log_length);
/* Keeps what matters at the log's start, and counts the records kept. 0, or 10. */
struct polvihe_answered polvihe_compact(uint8_t *log, size_t log_length);
/* Characters that the line of a record takes at most. */
size_t polvihe_line_room(void);
/* Writes a line for each record to the text's start, without a zero behind it, and counts the characters. 0, or 1 where the text has no room for
 * polvihe_line_room() of them for each record, 10. */
struct polvihe_answered polvihe_print(const uint8_t *log, size_t log_length, uint8_t *text, size_t text_length);

/* ---- Captures: pcap files of link type 189 or 220. The output's start becomes the file; its length is the one that the first function of each pair tells. */

/* 0 where converting is refused with 17 or 18. */
size_t polvihe_converted_length(const uint8_t *input, size_t input_length);
/* From 189 to 220, or back. 0, or 17, 18, 14. */
uint8_t polvihe_convert(const uint8_t *input, size_t input_length, uint8_t *output, size_t output_length);
/* 0 where merging is refused with 17, 19 or 20. */
size_t polvihe_merged_length(const uint8_t *first, size_t first_length, const uint8_t *second, size_t second_length);
/* Two captures made one, ordered by time; at equal times the first one's records come first. 0, or 17, 19, 20, 14. */
uint8_t polvihe_merge(const uint8_t *first, size_t first_length, const uint8_t *second, size_t second_length, uint8_t *output,
                      size_t output_length);

/* ---- Captures written: each call writes over the output's start and counts the bytes. Status and error as above, any other number being a transaction error. */

/* 24 bytes. 0, or 14. */
struct polvihe_answered polvihe_write_file_header(uint8_t *output, size_t output_length);
/* A record for each kind of event; `id` is the address of its TRB. 0, or 24, 14. */
struct polvihe_answered polvihe_write_in_submission(uint8_t *output, size_t output_length, uint16_t bus_number, uint8_t device_address,
                                                    uint32_t seconds, uint32_t microseconds, uint8_t endpoint_id, bool interrupt, uint64_t id,
                                                    uint32_t length);
struct polvihe_answered polvihe_write_in_completion(uint8_t *output, size_t output_length, uint16_t bus_number, uint8_t device_address,
                                                    uint32_t seconds, uint32_t microseconds, uint8_t endpoint_id, bool interrupt, uint64_t id,
                                                    uint8_t status, const uint8_t *data, size_t data_length);
struct polvihe_answered polvihe_write_control_submission(uint8_t *output, size_t output_length, uint16_t bus_number, uint8_t device_address,
                                                         uint32_t seconds, uint32_t microseconds, uint64_t id, uint8_t request_type,
                                                         uint8_t request, uint16_t value, uint16_t index, uint32_t length,
                                                         const uint8_t *collected, size_t collected_length);
struct polvihe_answered polvihe_write_control_completion_in(uint8_t *output, size_t output_length, uint16_t bus_number, uint8_t device_address,
                                                            uint32_t seconds, uint32_t microseconds, uint64_t id, const uint8_t *data,
                                                            size_t data_length);
struct polvihe_answered polvihe_write_control_completion_out(uint8_t *output, size_t output_length, uint16_t bus_number, uint8_t device_address,
                                                             uint32_t seconds, uint32_t microseconds, uint64_t id, uint32_t length);
struct polvihe_answered polvihe_write_control_error(uint8_t *output, size_t output_length, uint16_t bus_number, uint8_t device_address,
                                                    uint32_t seconds, uint32_t microseconds, bool direction, uint8_t error, uint64_t id,
                                                    uint8_t request_type, uint8_t request, uint16_t value, uint16_t index, uint32_t length,
                                                    uint32_t collected);
struct polvihe_answered polvihe_write_trb_error(uint8_t *output, size_t output_length, uint16_t bus_number, uint8_t device_address,
                                                uint32_t seconds, uint32_t microseconds, uint64_t id);

/* ---- Captures read. */

/* A record. A status below 0 stands as 2^32 less its amount; the payload stands in the file; `next` is where the next record starts. */
struct polvihe_record {
    uint32_t number, seconds, microseconds;
    uint64_t id;
    uint8_t event_type, transfer_type, endpoint_address, device_address;
    uint16_t bus_number;
    uint8_t setup_flag, data_flag;
    uint64_t header_seconds;
    uint32_t header_microseconds, status, length, delivered;
    uint8_t request_type, request;
    uint16_t value, index, setup_length;
    size_t payload_start, payload_length, next;
};
/* How many records a capture has that the functions above wrote. 0, or 22. */
struct polvihe_answered polvihe_read_capture(const uint8_t *input, size_t input_length);
/* The record at byte `at`: the first is at 24. 0, or 22 and all else 0. */
struct polvihe_record polvihe_read_record(const uint8_t *input, size_t input_length, size_t at);

#ifdef __cplusplus
}
#endif

#endif
