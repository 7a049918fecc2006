/* Any bytes as block, log, TRBs, rows, regions and files, through every function of polvihe.h. A lent buffer ends where a page begins that nobody may touch, or begins
 * behind one; the bytes on its other side must stay as they are. After a no every lent byte is as it was; every answer is one that the call may give; and where two ways
 * lead to the same, by two calls or by one, in place or by value, there and back, both give it.
 * fuzz [CALLS [SEED [FAULT]]]: prints how many calls of each function gave each number. With FAULT, 1 to 10, it stands in for a library that makes a mistake, and has to fail. */
#define _GNU_SOURCE
#include "polvihe.h"
#include <stdio.h>
#include <stdlib.h>
#include <string.h>
#include <sys/mman.h>
#include <unistd.h>

/* ---- Numbers from a seed */

static uint64_t state;
static uint64_t any(void) {
    state ^= state << 13, state ^= state >> 7, state ^= state << 17;
    return state;
}
static size_t below(size_t limit) { return limit ? any() % limit : 0; }
static int once_in(size_t n) { return below(n) == 0; }

/* ---- What is lent */

enum { GUARD = 64 };
/* Bytes between two pages that cannot be touched. What is lent lies at their start or at their end, with guard bytes on its other side. */
struct room { uint8_t *start, *end, *bytes, *guard, *copy, *twin; size_t length; uint8_t mark; };
static struct room rooms[10];
static struct room *const the_log = rooms, *const block = rooms + 1, *const collect = rooms + 2, *const low = rooms + 3, *const high = rooms + 4, *const data = rooms + 5,
                   *const row = rooms + 6, *const results = rooms + 7, *const out = rooms + 8, *const file = rooms + 9;
enum { DATA = 65536, REGION = 4096, ROW_TRBS = 520, DATA_LIMIT = 67108352, SNAP_LENGTH = 134217728 };
/* More data than any call takes: only its length is asked for. */
static uint8_t *huge;

static uint8_t *mapped(size_t length, int protection) {
    uint8_t *bytes = mmap(NULL, length, protection, MAP_PRIVATE | MAP_ANONYMOUS | MAP_NORESERVE, -1, 0);
    if (bytes == MAP_FAILED) { perror("mmap"); exit(2); }
    return bytes;
}
static void make_room(struct room *r, size_t size) {
    size_t page = (size_t)sysconf(_SC_PAGESIZE), length = (size + GUARD + page - 1) / page * page;
    r->start = mapped(length + 2 * page, PROT_NONE) + page, r->end = r->start + length;
    if (mprotect(r->start, length, PROT_READ | PROT_WRITE)) { perror("mprotect"); exit(2); }
    r->copy = malloc(size), r->twin = malloc(size);
    if (!r->copy || !r->twin) { perror("malloc"); exit(2); }
}
static void place(struct room *r, size_t length) {
    int at_end = once_in(2);
    r->length = length, r->bytes = at_end ? r->end - length : r->start, r->guard = at_end ? r->bytes - GUARD : r->bytes + length, r->mark = (uint8_t)any();
    memset(r->guard, r->mark, GUARD);
}
static void fill(struct room *r, size_t length) {
    place(r, length);
    for (size_t i = 0; i < length; i += 8) {
        uint64_t word = any() & any() & (any() | any());
        memcpy(r->bytes + i, &word, length - i < 8 ? length - i : 8);
    }
}
static void lend(struct room *r, const void *bytes, size_t length) { place(r, length), memcpy(r->bytes, bytes, length); }
static void keep(struct room *r) { memcpy(r->copy, r->bytes, r->length); }
static int same(const struct room *r) { return memcmp(r->copy, r->bytes, r->length) == 0; }
static int same_from(const struct room *r, size_t from) { return from <= r->length && memcmp(r->copy + from, r->bytes + from, r->length - from) == 0; }
static void make_twin(struct room *r) { memcpy(r->twin, r->bytes, r->length); }
static int as_twin(const struct room *r) { return memcmp(r->twin, r->bytes, r->length) == 0; }
/* Some bytes become others. */
static void damage(struct room *r, size_t most) {
    for (size_t i = below(most + 1); i > 0 && r->length; i--) r->bytes[below(r->length)] = (uint8_t)any();
}

/* ---- What is answered */

struct function { const char *name; uint8_t numbers[12]; uint64_t counts[32]; };
/* Each function that answers a number, and the numbers of its questions. */
enum { IN_CREATE, IN_SUBMIT, IN_COMPLETE, IN_DELIVER, IN_CANCEL, IN_ROW, CONTROL_CREATE, CONTROL_SUBMIT, CONTROL_RAW, CONTROL_COMPLETE, CONTROL_CANCEL, CARRY_OUT, ENCODE,
       CHECK_LOG, COMPACT, PRINT, CONVERT, MERGE, FILE_HEADER, IN_SUBMISSION, IN_COMPLETION, CONTROL_SUBMISSION, COMPLETION_IN, COMPLETION_OUT, CONTROL_ERROR, TRB_ERROR,
       READ_CAPTURE, READ_RECORD, FUNCTIONS };
static struct function functions[FUNCTIONS] = {
    [IN_CREATE] = {"in_create", {1, 12}, {0}}, [IN_SUBMIT] = {"in_submit", {1, 13, 2, 3, 4, 21, 5, 6}, {0}}, [IN_COMPLETE] = {"in_complete", {1, 2, 3, 8, 9}, {0}},
    [IN_DELIVER] = {"in_complete_and_carry_out", {1, 13, 2, 3, 8, 9, 11}, {0}}, [IN_CANCEL] = {"in_cancel", {1}, {0}},
    [IN_ROW] = {"in_complete_row", {1, 13, 2, 3, 15, 4, 21, 6, 9}, {0}}, [CONTROL_CREATE] = {"control_create", {1, 12}, {0}},
    [CONTROL_SUBMIT] = {"control_submit", {1, 13, 2, 3, 4, 21, 5, 6, 7}, {0}}, [CONTROL_RAW] = {"control_submit_raw", {1, 13, 2, 3, 21, 5, 6, 7}, {0}},
    [CONTROL_COMPLETE] = {"control_complete", {1, 2, 3, 8, 9}, {0}}, [CONTROL_CANCEL] = {"control_cancel", {1}, {0}}, [CARRY_OUT] = {"carry_out", {13, 10, 11}, {0}},
    [ENCODE] = {"encode_trb", {1, 23, 4}, {0}}, [CHECK_LOG] = {"check_log", {10}, {0}}, [COMPACT] = {"compact", {10}, {0}}, [PRINT] = {"print", {1, 10}, {0}},
    [CONVERT] = {"convert", {17, 18, 14}, {0}}, [MERGE] = {"merge", {17, 19, 20, 14}, {0}}, [FILE_HEADER] = {"write_file_header", {14}, {0}},
    [IN_SUBMISSION] = {"write_in_submission", {24, 14}, {0}}, [IN_COMPLETION] = {"write_in_completion", {24, 14}, {0}},
    [CONTROL_SUBMISSION] = {"write_control_submission", {24, 14}, {0}}, [COMPLETION_IN] = {"write_control_completion_in", {24, 14}, {0}},
    [COMPLETION_OUT] = {"write_control_completion_out", {24, 14}, {0}}, [CONTROL_ERROR] = {"write_control_error", {24, 14}, {0}},
    [TRB_ERROR] = {"write_trb_error", {24, 14}, {0}}, [READ_CAPTURE] = {"read_capture", {22}, {0}}, [READ_RECORD] = {"read_record", {22}, {0}}};
static uint64_t calls, carried, by_value;

static void expect(int holds, int function, const char *what) {
    if (holds) return;
    fprintf(stderr, "fuzz.c: polvihe_%s, call %llu: not so: %s\n", functions[function].name, (unsigned long long)calls, what);
    exit(1);
}
#define EXPECT(function, claim) expect(claim, function, #claim)

/* The mistake that is stood in for, now and then where it can be made. */
static int fault;
static int spoilt(int number) { return fault == number && once_in(16); }

static uint32_t answered(int function, uint32_t number) {
    struct function *f = functions + function;
    calls++;
    if (spoilt(1)) number = 25;
    int known = number == 0;
    for (const uint8_t *n = f->numbers; *n; n++) known |= *n == number;
    EXPECT(function, known);
    f->counts[number]++;
    if (spoilt(2)) rooms[below(10)].guard[below(GUARD)] ^= 1;
    for (struct room *r = rooms; r < rooms + 10; r++)
        for (int i = 0; i < GUARD; i++) expect(r->guard[i] == r->mark, function, "no byte beside a lent buffer changed");
    if (spoilt(3)) out->end[0] = 0;
    return number;
}

/* ---- The endpoints */

static size_t in_length, control_length;

/* A block that creation made, changed in a byte or two or in how many TRBs it says it holds or bytes it collected; or any bytes. */
static void fill_block(int control) {
    size_t whole = control ? control_length : in_length, length = once_in(16) ? below(whole + 64) : whole;
    fill(block, length), keep(block);
    uint8_t endpoint = (uint8_t)(once_in(16) ? any() : 1 + below(31)), slot = (uint8_t)(once_in(16) ? 0 : 1 + below(255));
    int made = control ? CONTROL_CREATE : IN_CREATE, kept = once_in(4);
    uint32_t number = control ? polvihe_control_create(block->bytes, length, endpoint, slot, (uint8_t)(4 + below(2)))
                              : polvihe_in_create(block->bytes, length, endpoint, slot, (uint8_t)below(2));
    EXPECT(made, number == (length < whole ? 1 : endpoint < 1 || endpoint > 31 || slot == 0 ? 12 : 0));
    if (answered(made, number) == 1) EXPECT(made, same(block));
    if (kept) memcpy(block->bytes, block->copy, length);
    else if (once_in(2)) for (size_t i = below(6); i > 0 && length > 64; i--) block->bytes[below(once_in(2) ? 64 : length)] = (uint8_t)any();
    uint16_t held = (uint16_t)(510 + below(4)), collected = (uint16_t)(65535 - below(300));
    if (once_in(16) && length >= whole) memcpy(block->bytes + (control ? 44 : 4), &held, 2), block->bytes[control ? 5 : 6] = (uint8_t)below(3);
    if (once_in(16) && length >= whole && control) memcpy(block->bytes + 32, &collected, 2), block->bytes[4] = 2, block->bytes[6] = 0;
}
/* The state of the block (docs/CALLS.md): 0 where a submission is due, 2 where the device is awaited. */
static uint8_t state_of(int control) { return block->length > 6 ? block->bytes[control ? 5 : 6] : 0; }
/* The TRB that a control endpoint takes in its phase. */
static uint8_t kind_due(void) {
    static const uint8_t kinds[] = {2, 3, 1, 4, 7};
    return block->length > 4 && block->bytes[4] < 5 ? kinds[block->bytes[4]] : 2;
}
/* Most results are given where one is awaited. */
static uint8_t any_status(int control) { return (uint8_t)(once_in(8) ? any() : state_of(control) == 2 ? below(5) : POLVIHE_NONE); }
static void fill_log(void) {
    size_t whole = below(4) ? POLVIHE_ROW_LOG_LENGTH : POLVIHE_LOG_LENGTH;
    fill(the_log, !once_in(32) ? whole : once_in(2) ? below(65) : below(whole + 32));
}
static uint64_t low_base, high_base;
static uint64_t base(void) { return below(4) ? 0x8000 + below(0x200) : below(2) ? UINT64_MAX - below(200) : any(); }
static void fill_regions(void) {
    fill(low, once_in(8) ? 0 : below(300)), fill(high, once_in(8) ? 0 : below(300));
    low_base = base(), high_base = base() + (below(2) ? 0x400 : 0);
}

/* Behind a call on an endpoint that logs: after a no nothing changed, and otherwise nothing behind the records. */
static void logged(int function, uint32_t number, size_t records) {
    if (spoilt(4) && the_log->length) the_log->bytes[the_log->length - 1] ^= 1;
    if (spoilt(5) && block->length) block->bytes[below(block->length)] ^= number != 0;
    EXPECT(function, !number || (records == 0 && same(block)));
    EXPECT(function, records <= the_log->length / 32 && same_from(the_log, 32 * records));
    EXPECT(function, same(low) && same(high));
}

/* Carries out what a call logged; where the call wrote for these regions and this data, that is never refused. */
static void carry_out(size_t records, size_t length, int ours) {
    if (length > DATA) return;
    fill(data, length), make_twin(low), make_twin(high);
    uint32_t number = answered(CARRY_OUT, polvihe_carry_out(the_log->bytes, 32 * records, data->bytes, length, low_base, low->bytes, low->length, high_base, high->bytes, high->length));
    EXPECT(CARRY_OUT, !number || (!ours && as_twin(low) && as_twin(high)));
    keep(low), keep(high);
}

static void submit(int control) {
    uint8_t kind = (uint8_t)(below(12) ? below(2) ? 1 : below(9) : any()), flags = (uint8_t)any(), raw[16];
    uint64_t value = below(2) ? base() : any(), address = any();
    uint32_t length = (uint32_t)(below(3) ? below(300) : below(2) ? 131070 + below(4) : any());
    /* A TRB for the low region, or over its end by a few bytes. */
    if (below(2)) {
        size_t at = below(low->length);
        flags &= (uint8_t)(once_in(16) ? 255 : ~POLVIHE_IMMEDIATE_DATA), value = low_base + at, length = (uint32_t)below(low->length + 4 - at);
    }
    if (control && below(4)) kind = kind_due();
    /* As its 16 bytes, or any 16 bytes where it has none. */
    if (answered(ENCODE, polvihe_encode_trb(kind, flags, value, length, raw, sizeof raw)) || once_in(8))
        for (size_t i = 0; i < sizeof raw; i++) raw[i] = (uint8_t)any();
    int is_raw = once_in(2), function = !control ? IN_SUBMIT : is_raw ? CONTROL_RAW : CONTROL_SUBMIT;
    struct polvihe_answered a;
    if (control) {
        uint8_t *watched = once_in(64) ? malloc(collect->length + 1) : NULL;
        if (watched) memcpy(watched, collect->bytes, collect->length);
        a = is_raw ? polvihe_control_submit_raw(the_log->bytes, the_log->length, collect->bytes, collect->length, block->bytes, block->length, raw, address, low_base, low->bytes,
                                                low->length, high_base, high->bytes, high->length)
                   : polvihe_control_submit(the_log->bytes, the_log->length, collect->bytes, collect->length, block->bytes, block->length, kind, flags, address, value, length,
                                            low_base, low->bytes, low->length, high_base, high->bytes, high->length);
        if (watched) EXPECT(function, !a.number || memcmp(watched, collect->bytes, collect->length) == 0);
        free(watched);
    } else {
        if (is_raw) {
            struct polvihe_trb trb = polvihe_decode_trb(raw);
            kind = trb.kind, flags = trb.flags, value = trb.value, length = trb.transfer_length;
        }
        a = polvihe_in_submit(the_log->bytes, the_log->length, block->bytes, block->length, kind, flags, address, value, length, low_base, low->length, high_base, high->length);
    }
    logged(function, answered(function, a.number), a.count);
}

static void complete(int control) {
    uint8_t status = any_status(control);
    size_t length = below(8) ? below(600) : below(2) ? DATA_LIMIT - 2 + below(6) : any();
    int function = control ? CONTROL_COMPLETE : IN_COMPLETE;
    struct polvihe_completion c = control ? polvihe_control_complete(the_log->bytes, the_log->length, block->bytes, block->length, status, length)
                                          : polvihe_in_complete(the_log->bytes, the_log->length, block->bytes, block->length, status, length);
    logged(function, answered(function, c.number), c.records);
    if (!c.number) carry_out(c.records, length, 0);
}

/* Completion and carry-out in one call, beside the two calls on twins: the number of their first no, and where there is none the same answer and bytes. */
static void deliver(void) {
    uint8_t status = any_status(0);
    int long_data = once_in(32);
    fill(data, below(600));
    const uint8_t *bytes = long_data ? huge : data->bytes;
    size_t length = long_data ? DATA_LIMIT + 1 + below(3) : data->length;
    struct room *lent[] = {the_log, block, low, high};
    for (int i = 0; i < 4; i++) make_twin(lent[i]);
    struct polvihe_completion two = polvihe_in_complete(the_log->twin, the_log->length, block->twin, block->length, status, length);
    uint32_t shared = polvihe_carry_out(NULL, 0, NULL, 0, low_base, low->twin, low->length, high_base, high->twin, high->length), expected = two.number;
    if (expected != 1 && shared) expected = shared;
    else if (!expected) expected = polvihe_carry_out(the_log->twin, 32 * two.records, bytes, length, low_base, low->twin, low->length, high_base, high->twin, high->length);
    struct polvihe_completion one = polvihe_in_complete_and_carry_out(the_log->bytes, the_log->length, block->bytes, block->length, status, bytes, length, low_base, low->bytes,
                                                                      low->length, high_base, high->bytes, high->length);
    answered(IN_DELIVER, one.number);
    if (spoilt(6) && low->length) low->bytes[below(low->length)] ^= 1;
    EXPECT(IN_DELIVER, one.number == expected);
    if (one.number) { logged(IN_DELIVER, one.number, one.records); return; }
    for (int i = 0; i < 4; i++) EXPECT(IN_DELIVER, as_twin(lent[i]));
    EXPECT(IN_DELIVER, one.result == two.result && one.code == two.code && one.located == two.located && one.cycle_bit == two.cycle_bit);
    EXPECT(IN_DELIVER, one.records == two.records && one.address == two.address);
    carried += !same(low) || !same(high);
    keep(low), keep(high), logged(IN_DELIVER, 0, one.records);
}

/* A row of whole TDs in the low region with a result for each, now and then changed in a byte or two or in its length; and how many bytes the results give. */
static size_t fill_row(void) {
    static struct polvihe_row_trb trbs[ROW_TRBS];
    static struct polvihe_row_result given[ROW_TRBS];
    size_t count = below(4) ? below(24) : below(ROW_TRBS), tds = 0, sum = 0, normals = 0;
    for (size_t i = 0; i < count; i++) {
        size_t into = below(low->length + 1);
        int last = i + 1 == count || once_in(3);
        trbs[i] = (struct polvihe_row_trb){.address = any(), .value = low_base + into, .transfer_length = (uint32_t)below(low->length - into + 1)};
        trbs[i].kind = (uint8_t)(below(4) ? 1 : 7 + below(2)), trbs[i].flags = (uint8_t)((any() & 13) | (last ? 0 : POLVIHE_CHAIN));
        normals += trbs[i].kind == 1;
        if (!last) continue;
        given[tds] = (struct polvihe_row_result){0};
        if (normals) given[tds].status = (uint8_t)(below(8) ? 0 : below(5)), given[tds].length = (uint32_t)(once_in(256) ? DATA_LIMIT : below(200));
        sum += given[tds++].length, normals = 0;
    }
    if (once_in(64) && count) {
        struct polvihe_row_trb *trb = trbs + below(count);
        if (once_in(2)) trb->flags |= POLVIHE_IMMEDIATE_DATA;
        else trb->transfer_length = 131072;
    }
    size_t odd = once_in(16);
    lend(row, trbs, 24 * count - (odd && count ? below(25) : 0)), lend(results, given, 8 * tds - (odd && tds ? below(9) : 0));
    if (once_in(3)) damage(row, 3);
    if (once_in(8)) damage(results, 1);
    return !once_in(16) ? sum : below(2) ? below(2000) : any();
}

static void complete_row(void) {
    size_t length = fill_row();
    keep(row), keep(results), make_twin(block);
    struct polvihe_row_completion c = polvihe_in_complete_row(the_log->bytes, the_log->length, block->bytes, block->length, row->bytes, row->length, results->bytes, results->length,
                                                              length, low_base, low->length, high_base, high->length);
    answered(IN_ROW, c.number);
    if (spoilt(7)) c.finished++;
    EXPECT(IN_ROW, same(row) && same(results) && as_twin(block));
    EXPECT(IN_ROW, !c.number || c.finished == 0);
    EXPECT(IN_ROW, c.number || c.finished + (c.result != 0) <= results->length / 8);
    EXPECT(IN_ROW, c.number || c.result != 0 || c.finished == results->length / 8);
    logged(IN_ROW, c.number, c.records);
    if (!c.number) carry_out(c.records, length, 1);
}

static void cancel(int control) {
    size_t length = once_in(4) ? below(block->length + 1) : block->length;
    make_twin(block);
    int function = control ? CONTROL_CANCEL : IN_CANCEL, is_short = length < (control ? control_length : in_length);
    uint32_t number = answered(function, control ? polvihe_control_cancel(block->bytes, length) : polvihe_in_cancel(block->bytes, length));
    EXPECT(function, number == (uint32_t)is_short);
    EXPECT(function, (!number && !control) || as_twin(block));
    /* Nothing is held and a submission is due; layout, ids and mode are as they were, as far as the layout is this one. */
    if (!number && !control && block->twin[0] == 1) EXPECT(function, memcmp(block->twin, block->bytes, 4) == 0 && !block->bytes[4] && !block->bytes[5] && !block->bytes[6]);
}

static void run_on_endpoint(void) {
    int control = once_in(2), rows = !control && once_in(4);
    fill_block(control), fill_log();
    if (once_in(64)) fill(collect, below(4) ? POLVIHE_COLLECT_LENGTH : below(POLVIHE_COLLECT_LENGTH + 64));
    /* Most calls under the same regions. */
    for (size_t run = 1 + below(12), first = run; run > 0; run--) {
        if (run == first || once_in(4)) fill_regions();
        keep(the_log), keep(block), keep(low), keep(high);
        if (once_in(32)) cancel(control);
        else if (rows || (!control && once_in(12))) complete_row();
        else if (once_in(4) ? once_in(2) : state_of(control) == 0) submit(control);
        else if (!control && once_in(2)) deliver();
        else complete(control);
    }
}

/* ---- In place beside by value: the functions by value that can be exported (crates/bench_calls), which make whole TDs of Normals and control transfers and sum up what
 * the calls answer: records, 2^20 for a result other than Ok, 2^40 for a no. Sum and log are the same in place. */

uint64_t bench_calls_in_by_value(uint8_t *log, size_t log_length, const uint8_t *window, size_t window_length, const uint8_t *data, size_t data_length, uint32_t trbs,
                                 uint32_t transfer_length, uint8_t status, bool completes, uint32_t repeats);
uint64_t bench_calls_control(uint8_t *log, size_t log_length, uint8_t *collect, size_t collect_length, const uint8_t *window, size_t window_length, const uint8_t *data,
                             size_t data_length, uint32_t transfer_length, uint32_t repeats);
enum { FIRST_TRB = 4096 };
static const uint64_t high_region = 0x100000000;

static uint64_t sum_of(uint32_t number, size_t records, uint8_t result) { return number ? (uint64_t)1 << 40 : records + ((uint64_t)(result != 0) << 20); }

static uint64_t in_place_tds(uint8_t *bytes, uint32_t trbs, uint32_t transfer_length, uint8_t status, int completes, uint32_t repeats) {
    uint64_t sum = 0;
    EXPECT(IN_CREATE, answered(IN_CREATE, polvihe_in_create(block->bytes, block->length, 3, 2, 0)) == 0);
    for (; repeats > 0; repeats--)
        for (uint32_t i = 0; i < trbs; i++) {
            int ends = i + 1 == trbs;
            uint8_t flags = POLVIHE_CYCLE | POLVIHE_INTERRUPT_ON_SHORT | (ends ? POLVIHE_INTERRUPT_ON_COMPLETION : POLVIHE_CHAIN);
            struct polvihe_answered a = polvihe_in_submit(bytes, the_log->length, block->bytes, block->length, 1, flags, FIRST_TRB + 16 * (uint64_t)i,
                                                          (uint64_t)i * transfer_length, transfer_length, 0, low->length, high_region, low->length);
            sum += sum_of(answered(IN_SUBMIT, a.number), a.count, 0);
            if (ends && !completes) { EXPECT(IN_CANCEL, answered(IN_CANCEL, polvihe_in_cancel(block->bytes, block->length)) == 0); continue; }
            struct polvihe_completion c = polvihe_in_complete(bytes, the_log->length, block->bytes, block->length, ends ? status : POLVIHE_NONE, data->length);
            sum += sum_of(answered(IN_COMPLETE, c.number), c.records, c.result);
        }
    return sum;
}

static uint64_t in_place_transfers(uint8_t *bytes, uint8_t *collected, uint32_t transfer_length, uint32_t repeats) {
    static const struct { uint8_t kind, flags; uint64_t value; } stages[] = {{2, POLVIHE_CYCLE, 0x0040000001000680},
        {3, POLVIHE_CYCLE | POLVIHE_INTERRUPT_ON_SHORT | POLVIHE_DIRECTION, 0}, {4, POLVIHE_CYCLE | POLVIHE_INTERRUPT_ON_COMPLETION, 0}};
    uint64_t sum = 0;
    EXPECT(CONTROL_CREATE, answered(CONTROL_CREATE, polvihe_control_create(block->bytes, block->length, 1, 2, 4)) == 0);
    for (; repeats > 0; repeats--)
        for (int i = 0; i < 3; i++) {
            struct polvihe_answered a = polvihe_control_submit(bytes, the_log->length, collected, collect->length, block->bytes, block->length, stages[i].kind, stages[i].flags,
                                                               FIRST_TRB + 16 * (uint64_t)i, stages[i].value, i == 1 ? transfer_length : 0, 0, low->bytes, low->length,
                                                               high_region, low->bytes, low->length);
            sum += sum_of(answered(CONTROL_SUBMIT, a.number), a.count, 0);
            struct polvihe_completion c = polvihe_control_complete(bytes, the_log->length, block->bytes, block->length, i == 2 ? POLVIHE_SUCCESS : POLVIHE_NONE, data->length);
            sum += sum_of(answered(CONTROL_COMPLETE, c.number), c.records, c.result);
        }
    return sum;
}

static void beside_by_value(void) {
    int control = once_in(3);
    uint32_t trbs = (uint32_t)(once_in(256) ? 511 + below(3) : 1 + below(8)), repeats = 1 + (uint32_t)below(2);
    uint32_t transfer_length = (uint32_t)(below(8) ? below(300) : 131070 + below(4));
    fill_log(), fill(block, control ? control_length : in_length), fill(low, below(8) ? below(REGION) : 0), fill(data, below(4) ? below(600) : below(trbs * 300));
    make_twin(the_log), by_value++;
    uint64_t sum, in_place;
    if (control) {
        fill(collect, below(8) ? POLVIHE_COLLECT_LENGTH : below(POLVIHE_COLLECT_LENGTH + 64)), make_twin(collect);
        sum = bench_calls_control(the_log->bytes, the_log->length, collect->bytes, collect->length, low->bytes, low->length, data->bytes, data->length, transfer_length, repeats);
        in_place = in_place_transfers(the_log->twin, collect->twin, transfer_length, repeats);
        EXPECT(CONTROL_SUBMIT, as_twin(collect));
    } else {
        uint8_t status = (uint8_t)below(4);
        bool completes = below(8) != 0;
        sum = bench_calls_in_by_value(the_log->bytes, the_log->length, low->bytes, low->length, data->bytes, data->length, trbs, transfer_length, status, completes, repeats);
        in_place = in_place_tds(the_log->twin, trbs, transfer_length, status, completes, repeats);
    }
    if (spoilt(8)) in_place++;
    EXPECT(control ? CONTROL_COMPLETE : IN_COMPLETE, sum == in_place);
    EXPECT(control ? CONTROL_COMPLETE : IN_COMPLETE, as_twin(the_log));
}

/* ---- Raw TRBs */

static int alike(struct polvihe_trb a, struct polvihe_trb b) { return a.kind == b.kind && a.flags == b.flags && a.transfer_length == b.transfer_length && a.value == b.value; }

/* Any 16 bytes decoded; what they are is encoded, and decoded again. */
static void raw_trbs(void) {
    fill(file, 16), keep(file);
    if (below(4)) file->bytes[13] = (uint8_t)(below(10) << 2), keep(file);
    struct polvihe_trb trb = polvihe_decode_trb(file->bytes);
    EXPECT(ENCODE, same(file));
    fill(out, once_in(8) ? below(16) : 16 + below(8)), keep(out);
    int other_length = once_in(8);
    if (other_length) trb.transfer_length = (uint32_t)any();
    uint32_t number = answered(ENCODE, polvihe_encode_trb(trb.kind, trb.flags, trb.value, trb.transfer_length, out->bytes, out->length));
    EXPECT(ENCODE, number ? same(out) : same_from(out, 16));
    EXPECT(ENCODE, (number == 1) == (out->length < 16));
    if (!number && !other_length) EXPECT(ENCODE, alike(polvihe_decode_trb(out->bytes), trb));
}

/* ---- Stored logs */

static void stored_logs(void) {
    fill(file, below(4) ? 32 * below(40) : below(1400));
    if (below(4)) for (size_t i = 0; i < file->length; i += 32) file->bytes[i] = (uint8_t)(1 + below(3));
    /* Writes that go on where the one before ends. */
    if (once_in(2)) for (size_t i = 64; i <= file->length; i += 32) if (once_in(2)) {
        uint64_t address, length = below(3);
        uint32_t start;
        uint8_t *record = file->bytes + i - 32, *before = record - 32;
        memcpy(before + 16, &length, 4), memcpy(&address, before + 8, 8), memcpy(&start, before + 20, 4);
        address += length, start += (uint32_t)length, memcpy(record, before, 8), memcpy(record + 8, &address, 8), memcpy(record + 20, &start, 4);
    }
    size_t records = file->length / 32, room = once_in(2) ? below(records * polvihe_line_room() + 1) : records * polvihe_line_room();
    fill(out, room), keep(file), keep(out);
    uint32_t number = answered(CHECK_LOG, polvihe_check_log(file->bytes, file->length));
    struct polvihe_answered printed = polvihe_print(file->bytes, file->length, out->bytes, out->length);
    answered(PRINT, printed.number);
    EXPECT(PRINT, same(file) && printed.number == (room / polvihe_line_room() < records ? 1 : number));
    EXPECT(PRINT, printed.number ? same(out) : same_from(out, printed.count));
    fill_regions(), fill(data, below(200)), keep(low), keep(high), keep(data);
    uint32_t no = answered(CARRY_OUT, polvihe_carry_out(file->bytes, file->length, data->bytes, data->length, low_base, low->bytes, low->length, high_base, high->bytes, high->length));
    EXPECT(CARRY_OUT, same(file) && same(data) && (!no || (same(low) && same(high))));
    EXPECT(CARRY_OUT, no == 13 || (no == 10) == (number == 10));
    struct polvihe_answered kept = polvihe_compact(file->bytes, file->length);
    answered(COMPACT, kept.number);
    if (spoilt(9)) kept.count++;
    EXPECT(COMPACT, kept.number == number && kept.count <= records);
    EXPECT(COMPACT, !kept.number || same(file));
    if (kept.number) return;
    /* What is kept, compacted once more, is kept whole. */
    make_twin(file);
    struct polvihe_answered again = polvihe_compact(file->bytes, 32 * kept.count);
    EXPECT(COMPACT, answered(COMPACT, again.number) == 0 && again.count == kept.count && as_twin(file));
}

/* ---- Captures */

static uint32_t seconds;
static struct polvihe_answered write_record(int function, uint8_t *output, size_t length) {
    uint16_t bus = (uint16_t)any(), value = (uint16_t)any(), index = (uint16_t)any();
    uint8_t device = (uint8_t)any(), endpoint = (uint8_t)any(), status = (uint8_t)below(6), request_type = (uint8_t)any(), request = (uint8_t)any();
    uint32_t micros = (uint32_t)(once_in(32) ? 999999 + below(3) : below(1000000)), asked = (uint32_t)any(), number = (uint32_t)below(65536);
    uint64_t id = any();
    int long_data = once_in(64);
    const uint8_t *bytes = long_data ? huge : data->bytes;
    size_t count = long_data ? SNAP_LENGTH - 100 + below(200) : data->length;
    switch (function) {
    case IN_SUBMISSION: return polvihe_write_in_submission(output, length, bus, device, seconds, micros, endpoint, once_in(2), id, asked);
    case IN_COMPLETION: return polvihe_write_in_completion(output, length, bus, device, seconds, micros, endpoint, once_in(2), id, status, bytes, count);
    case CONTROL_SUBMISSION: return polvihe_write_control_submission(output, length, bus, device, seconds, micros, id, request_type, request, value, index, asked, bytes, count);
    case COMPLETION_IN: return polvihe_write_control_completion_in(output, length, bus, device, seconds, micros, id, bytes, count);
    case COMPLETION_OUT: return polvihe_write_control_completion_out(output, length, bus, device, seconds, micros, id, asked);
    case CONTROL_ERROR: return polvihe_write_control_error(output, length, bus, device, seconds, micros, once_in(2), status, id, request_type, request, value, index, asked, number);
    default: return polvihe_write_trb_error(output, length, bus, device, seconds, micros, id);
    }
}

/* A capture in `file`, record by record, most of them by the order of time; its records. */
static size_t write_capture(void) {
    size_t records = 0, end = 0, room = below(16) ? 2048 : below(200);
    fill(file, room), seconds = (uint32_t)below(100);
    for (size_t left = 1 + below(8); left > 0; left--) {
        keep(file), fill(data, below(200));
        int function = end ? IN_SUBMISSION + (int)below(TRB_ERROR - IN_SUBMISSION + 1) : FILE_HEADER;
        struct polvihe_answered a = end ? write_record(function, file->bytes + end, file->length - end) : polvihe_write_file_header(file->bytes, file->length);
        answered(function, a.number);
        EXPECT(function, a.number ? a.count == 0 && same(file) : memcmp(file->copy, file->bytes, end) == 0 && same_from(file, end + a.count));
        EXPECT(function, a.number || end || a.count == 24);
        records += !a.number && end, end += a.count, seconds += (uint32_t)below(3);
        if (!end) break;
    }
    memcpy(file->twin, file->bytes, end), lend(file, file->twin, end);
    return records;
}

static void read_records(size_t records) {
    keep(file);
    struct polvihe_answered a = polvihe_read_capture(file->bytes, file->length);
    EXPECT(READ_CAPTURE, answered(READ_CAPTURE, a.number) == 0 && a.count == records);
    size_t at = 24;
    for (; records > 0; records--) {
        struct polvihe_record r = polvihe_read_record(file->bytes, file->length, at);
        if (spoilt(10)) r.next++;
        EXPECT(READ_RECORD, answered(READ_RECORD, r.number) == 0);
        EXPECT(READ_RECORD, r.payload_start == at + 64 && r.next == r.payload_start + r.payload_length && r.next <= file->length);
        at = r.next;
    }
    EXPECT(READ_RECORD, at == file->length && same(file));
    at = below(file->length + 100);
    struct polvihe_record r = polvihe_read_record(file->bytes, file->length, at);
    EXPECT(READ_RECORD, !answered(READ_RECORD, r.number) || (!r.next && !r.payload_length && !r.id && !r.seconds));
}

/* Converts `file` into an output that has just room, a byte too few, or any room. */
static uint32_t convert(size_t length, size_t room) {
    fill(out, room), keep(out);
    uint32_t number = answered(CONVERT, polvihe_convert(file->bytes, file->length, out->bytes, out->length));
    EXPECT(CONVERT, same(file) && (length == 0) == (number == 17 || number == 18) && (number == 14) == (length > room));
    EXPECT(CONVERT, number ? same(out) : same_from(out, length));
    return number;
}

static void convert_and_merge(void) {
    keep(file);
    size_t length = polvihe_converted_length(file->bytes, file->length);
    EXPECT(CONVERT, same(file));
    convert(length, length ? length - 1 : below(64)), convert(length, below(4096));
    int is_whole = convert(length, length) == 0;
    /* Back again: the file as it was. */
    if (is_whole) {
        size_t whole = file->length;
        memcpy(file->twin, file->bytes, whole), lend(file, out->bytes, length), keep(file);
        EXPECT(CONVERT, polvihe_converted_length(file->bytes, file->length) == whole && convert(whole, whole) == 0 && memcmp(out->bytes, file->twin, whole) == 0);
        if (once_in(2)) lend(file, file->twin, whole), keep(file);
    }
    /* With itself, with an earlier capture, or with the converted one. */
    static uint8_t earlier[8192];
    static size_t earlier_length;
    if (once_in(2)) lend(data, earlier, earlier_length);
    else lend(data, file->bytes, file->length);
    keep(data);
    size_t merged = polvihe_merged_length(file->bytes, file->length, data->bytes, data->length), rooms_tried[] = {merged, merged ? merged - 1 : below(64), below(8192)};
    for (int i = 0; i < 3; i++) {
        fill(out, rooms_tried[i]), keep(out);
        uint32_t number = answered(MERGE, polvihe_merge(file->bytes, file->length, data->bytes, data->length, out->bytes, out->length));
        EXPECT(MERGE, same(file) && same(data) && (merged == 0) == (number == 17 || number == 19 || number == 20) && (number == 14) == (merged > out->length));
        EXPECT(MERGE, number ? same(out) : same_from(out, merged));
    }
    if (once_in(4)) memcpy(earlier, file->bytes, earlier_length = file->length);
}

static void captures(void) {
    size_t records = write_capture();
    if (file->length) read_records(records);
    /* Any bytes behind a capture's header, or a capture with some bytes changed. */
    if (once_in(4)) damage(file, 3);
    /* An isochronous transfer; times that go backwards. */
    if (once_in(8) && records) file->bytes[24 + 16 + 9] = 0;
    if (once_in(8) && records) file->bytes[24] = 255;
    if (once_in(16)) place(file, file->length - below(file->length));
    if (once_in(16)) fill(file, below(1400));
    keep(file);
    struct polvihe_answered a = polvihe_read_capture(file->bytes, file->length);
    answered(READ_CAPTURE, a.number);
    EXPECT(READ_CAPTURE, same(file) && (!a.number || a.count == 0));
    convert_and_merge();
}

/* ---- */

int main(int words, char **word) {
    uint64_t wanted = words > 1 ? strtoull(word[1], NULL, 10) : 100000;
    state = (words > 2 ? strtoull(word[2], NULL, 10) : 1) * 0x9e3779b97f4a7c15u | 1;
    fault = words > 3 ? atoi(word[3]) : 0;
    in_length = polvihe_in_block_length(), control_length = polvihe_control_block_length();
    make_room(the_log, POLVIHE_ROW_LOG_LENGTH + 64), make_room(block, control_length + in_length), make_room(collect, POLVIHE_COLLECT_LENGTH + 64);
    make_room(low, REGION), make_room(high, REGION), make_room(data, 3 * DATA), make_room(row, 24 * ROW_TRBS), make_room(results, 8 * ROW_TRBS);
    make_room(out, DATA), make_room(file, DATA);
    huge = mapped(SNAP_LENGTH + 4096, PROT_READ);
    for (struct room *r = rooms; r < rooms + 10; r++) fill(r, 0);
    fill(collect, POLVIHE_COLLECT_LENGTH);
    while (calls < wanted) {
        run_on_endpoint(), raw_trbs(), stored_logs();
        if (once_in(2)) captures();
        if (once_in(8)) beside_by_value();
    }
    uint64_t accepted = 0;
    for (int i = 0; i < FUNCTIONS; i++) {
        printf("%s: %llu accepted", functions[i].name, (unsigned long long)functions[i].counts[0]), accepted += functions[i].counts[0];
        for (const uint8_t *n = functions[i].numbers; *n; n++) printf(", %d: %llu", *n, (unsigned long long)functions[i].counts[*n]);
        puts("");
        /* Every function gives each of its answers, unless there are few calls. */
        for (const uint8_t *n = functions[i].numbers; *n && wanted >= 200000; n++) EXPECT(i, functions[i].counts[0] && functions[i].counts[*n]);
    }
    printf("%llu calls, %llu accepted; no byte beside the lent buffers changed, none after a no; %llu wrote guest memory in the completing call; %llu whole TDs and transfers as by value\n",
           (unsigned long long)calls, (unsigned long long)accepted, (unsigned long long)carried, (unsigned long long)by_value);
    return 0;
}
