/* A C host of the library: session S1, halts and resumes, freezes, where records stand, each refusal, rooms and states at their
 * bounds, counts and their sums, batches, and where two recordings part, through include/brb.h.
 *
 * Every lent area is allocated with exactly the numbers that are lent, so that valgrind sees a step past its end. */
#include "brb.h"
#include <inttypes.h>
#include <stdio.h>
#include <stdlib.h>
#include <string.h>

#define TEST "c host"
#include "check.h"

/* A state and a room, lent with their lengths. */
struct lent {
    uint64_t *state, *room;
    size_t state_numbers, room_numbers;
};

static uint64_t *numbers(size_t count, uint64_t fill) {
    uint64_t *area = malloc(count ? count * sizeof *area : 1);
    if (!area) {
        perror("c host");
        exit(2);
    }
    for (size_t i = 0; i < count; i++) area[i] = fill;
    return area;
}

/* The numbers of an area, in an area of their own. */
static uint64_t *copied(const uint64_t *area, size_t count) {
    uint64_t *copy = numbers(count, 0);
    if (count) memcpy(copy, area, count * sizeof *copy);
    return copy;
}

static struct lent lend(size_t state_numbers, uint64_t state_fill, size_t room_numbers) {
    struct lent l = {numbers(state_numbers, state_fill), numbers(room_numbers, 7), state_numbers, room_numbers};
    return l;
}

static void take_back(struct lent *l) {
    free(l->state);
    free(l->room);
}

static struct brb_answer step(struct lent *l, uint64_t code, uint64_t cycles, uint64_t a, uint64_t b, uint64_t c,
                              uint64_t d) {
    return brb_step(l->state, l->state_numbers, l->room, l->room_numbers, code, cycles, a, b, c, d);
}

/* An operation that must answer this number and value. */
static void answers(struct lent *l, const uint64_t o[6], uint64_t number, uint64_t value, const char *what) {
    struct brb_answer answer = step(l, o[0], o[1], o[2], o[3], o[4], o[5]);
    check(answer.number == number, what);
    check(answer.value == value, what);
}

static int same(const uint64_t *area, const uint64_t *kept, size_t count) {
    return count == 0 || memcmp(area, kept, count * sizeof *area) == 0;
}

/* An operation that must be refused with this number, the value 0, and nothing changed. */
static void refuses(struct lent *l, const uint64_t o[6], uint64_t number, const char *what) {
    uint64_t *state = numbers(l->state_numbers, 0), *room = numbers(l->room_numbers, 0);
    memcpy(state, l->state, l->state_numbers * sizeof *state);
    memcpy(room, l->room, l->room_numbers * sizeof *room);
    answers(l, o, number, 0, what);
    check(same(l->state, state, l->state_numbers), what);
    check(same(l->room, room, l->room_numbers), what);
    free(state);
    free(room);
}

#define OP(...) ((const uint64_t[6]){__VA_ARGS__})

/* The three numbers of a record: it stands as many places above the state's start as its number says, going round. */
static const uint64_t *record(const struct lent *l, uint64_t number) {
    uint64_t place = l->state[BRB_STATE_START] + number, size = l->state[BRB_STATE_SIZE];
    return l->room + 3 * (place < size ? place : place - size);
}

static void session_s1(void) {
    struct lent l = lend(BRB_STATE_NUMBERS, 0, BRB_ROOM_NUMBERS(64));
    answers(&l, OP(0, 0, 8, 0), 0, 0, "S1: reset");
    answers(&l, OP(4, 0, 49), 0, 0, "S1: platform word");
    answers(&l, OP(6, 0, 1, 10), 0, 0, "S1: write of BRBCR_EL1");
    answers(&l, OP(6, 0, 2, 8), 0, 0, "S1: write of BRBCR_EL2");
    answers(&l, OP(6, 0, 3, 65536), 0, 0, "S1: write of BRBFCR_EL1");
    answers(&l, OP(3, 0, 1, 0, 128, 4096), 0, 0, "S1: return to EL1");
    answers(&l, OP(1, 300, 0, 0, 4100, 4112), 0, 0, "S1: first branch");
    answers(&l, OP(1, 300, 8, 1, 4112, 4096), 0, 0, "S1: second branch");
    answers(&l, OP(5, 0, 32), 0, UINT64_C(0x0000012c00000843), "S1: newest BRBINF");
    answers(&l, OP(5, 0, 33), 0, UINT64_C(0x0000400000000043), "S1: the BRBINF before it");
    answers(&l, OP(5, 0, 64), 0, UINT64_C(0x1010), "S1: newest BRBSRC");
    answers(&l, OP(5, 0, 2), 100, 0, "S1: BRBCR_EL2 at EL1 is undefined");

    struct brb_answer answer = brb_read(l.state, l.state_numbers, l.room, l.room_numbers, 9, 96);
    check(answer.number == 0 && answer.value == 4096, "brb_read: newest BRBTGT");
    check(l.state[7] == 9, "brb_read: its cycles count");
    answer = brb_read(l.state, l.state_numbers, l.room, l.room_numbers, 0, 5);
    check(answer.number == 4 && answer.value == 0, "brb_read: register 5 is refused");
    check(l.state[BRB_STATE_START] == 6, "S1: two records below the end of eight places");
    check(record(&l, 0) == l.room + 18 && record(&l, 1)[1] == 4100, "S1: where they stand");
    check(l.room[24] == 7, "S1: the room past eight records is not written");
    take_back(&l);
}

/* EL1 recorded and counting on, as in S1, and one branch that is a record. */
static struct lent recorded_at_el1(void) {
    static const uint64_t operations[][6] = {{0, 0, 8},        {4, 0, 49},           {6, 0, 1, 10},
                                             {6, 0, 2, 8},     {6, 0, 3, 65536},     {3, 0, 1, 0, 128, 4096},
                                             {1, 300, 0, 0, 4096, 4100}};
    struct lent l = lend(BRB_STATE_NUMBERS, 0, BRB_ROOM_NUMBERS(8));
    for (size_t i = 0; i < sizeof operations / sizeof operations[0]; i++)
        answers(&l, operations[i], 0, 0, "a session at EL1");
    return l;
}

/* A debugger halts the processor 100 cycles after a record and lets it go on 5,000 cycles later. */
static void halt_and_resume(void) {
    struct lent l = recorded_at_el1();
    refuses(&l, OP(BRB_CODE_RESUME, 5, 4104, 1), 8, "8: a resume while not halted");
    refuses(&l, OP(BRB_CODE_RESUME, 5, 4104, 4), 4, "4 before 8: a resume to level 4");
    answers(&l, OP(BRB_CODE_HALT, 100, 4100), 0, 0, "a halt");
    check(l.state[BRB_STATE_HALTED] == 1 && l.state[BRB_STATE_LEVEL] == 1, "halted at EL1");
    check(l.state[BRB_STATE_COUNT] == 0 && l.state[BRB_STATE_UNKNOWN] == 0, "the halt's record took the count");
    check(record(&l, 0)[0] == UINT64_C(0x0000006400002102), "BRBINF of a halt: half-source, type 0x21, 100 cycles, level 0");
    check(record(&l, 0)[1] == 4100 && record(&l, 0)[2] == 0, "a halt has a source and no target");

    refuses(&l, OP(BRB_CODE_BRANCH, 5, 0, 0, 8, 12), 8, "8: a branch while halted");
    refuses(&l, OP(BRB_CODE_EXCEPTION, 5, BRB_TYPE_IRQ, 1, 8, 12), 8, "8: an exception while halted");
    refuses(&l, OP(BRB_CODE_RETURN, 5, 1, 0, 8, 12), 8, "8: a return while halted");
    refuses(&l, OP(BRB_CODE_RETURN, 5, 2, 0, 8, 12), 8, "8 before 5: a return that goes up while halted");
    refuses(&l, OP(BRB_CODE_HALT, 5, 4104), 8, "8: a second halt");
    refuses(&l, OP(BRB_CODE_BRANCH, 5, 4, 0, 8, 12), 4, "4 before 8: branch type 4 while halted");
    refuses(&l, OP(BRB_CODE_PLATFORM, 5, 49), 5, "5: a platform word while halted at EL1");
    answers(&l, OP(BRB_CODE_READ, 0, 32), 0, UINT64_C(0x0000006400002102), "a read while halted");
    answers(&l, OP(BRB_CODE_READ, 0, 2), 100, 0, "BRBCR_EL2 while halted at EL1 is undefined");
    check(l.state[BRB_STATE_UNKNOWN] == 1, "what began halted makes the next count unknown");

    answers(&l, OP(BRB_CODE_RESUME, 5000, 4104, 1), 0, 0, "a resume");
    check(l.state[BRB_STATE_HALTED] == 0 && l.state[BRB_STATE_LEVEL] == 1, "not halted, at EL1");
    check(record(&l, 0)[0] == UINT64_C(0x0000400000003941), "BRBINF of a resume: half-target, type 0x39, unknown, level 1");
    check(record(&l, 0)[1] == 0 && record(&l, 0)[2] == 4104, "a resume has a target and no source");
    answers(&l, OP(BRB_CODE_BRANCH, 7, 0, 0, 4104, 4096), 0, 0, "a branch after the resume");
    check(record(&l, 0)[0] == UINT64_C(0x0000000700000043), "whose count is known");
    take_back(&l);
}

/* Levels of a resume, a halt at a prohibited level, and a reset that ends a halt. */
static void halts(void) {
    struct lent l = recorded_at_el1();
    answers(&l, OP(BRB_CODE_HALT, 0, 8), 0, 0, "a halt at EL1");
    answers(&l, OP(BRB_CODE_RESUME, 0, 12, 3), 0, 0, "a resume that goes up to EL3");
    check(l.state[BRB_STATE_LEVEL] == 3, "at EL3");
    check(BRB_INF_TYPE_OF(record(&l, 0)[0]) == BRB_TYPE_DEBUG_HALT, "EL3 is prohibited: no record");
    answers(&l, OP(BRB_CODE_HALT, 0, 8), 0, 0, "a halt at EL3");
    check(BRB_INF_TYPE_OF(record(&l, 0)[0]) == BRB_TYPE_DEBUG_HALT, "EL3 is prohibited: no record again");
    check(record(&l, 1)[1] == 4096 && record(&l, 2)[0] == 0, "behind it the branch, and nothing else");
    answers(&l, OP(BRB_CODE_PLATFORM, 0, 0), 0, 0, "a platform word while halted at EL3");
    refuses(&l, OP(BRB_CODE_RESUME, 5, 12, 2), 5, "5: a resume to level 2 with EL2 not enabled");
    answers(&l, OP(BRB_CODE_PLATFORM, 0, BRB_P_NS | BRB_P_TGE), 0, 0, "TGE, with EL2 enabled");
    refuses(&l, OP(BRB_CODE_RESUME, 5, 12, 1), 5, "5: a resume to level 1 with TGE");
    l.room_numbers--;
    refuses(&l, OP(BRB_CODE_HALT, 5, 12), 8, "8 before 6: a second halt in a room that is too short");
    refuses(&l, OP(BRB_CODE_RESUME, 5, 12, 2), 6, "6: a resume in a room that is too short");
    l.room_numbers++;
    answers(&l, OP(BRB_CODE_RESET, 0, 8, 0), 0, 0, "a reset while halted");
    check(l.state[BRB_STATE_HALTED] == 0, "a reset ends the halt");
    refuses(&l, OP(BRB_CODE_RESUME, 5, 12, 3), 8, "8: a resume after it");
    take_back(&l);
}

/* BRBCR_EL1 of a session at EL1, with FZP and the virtual time; and the time of a count of 1,000 with an offset of 1,500. */
#define FREEZING (10 | BRB_CONTROL_FZP | BRB_CONTROL_TS_IS(BRB_TS_VIRTUAL))
#define WRAPPED UINT64_C(0xFFFFFFFFFFFFFE0C)

/* An overflow freezes at EL1, and a write of BRBFCR_EL1 lets recording go on. */
static void freeze_and_go_on(void) {
    struct lent l = recorded_at_el1();
    answers(&l, OP(BRB_CODE_WRITE, 0, BRB_REGISTER_BRBCR_EL1, FREEZING), 0, 0, "FZP and TS 1 in BRBCR_EL1");
    answers(&l, OP(BRB_CODE_FREEZE, 40, 0, 1000, 1500, 7), 0, 0, "a freeze");
    check(l.state[BRB_STATE_BRBFCR_EL1] == (BRB_FILTER_ENI | BRB_FILTER_PAUSED), "PAUSED is set, and EnI stays");
    check(l.state[BRB_STATE_BRBTS_EL1] == WRAPPED, "the time is taken modulo 2^64");
    check(l.state[BRB_STATE_COUNT] == 40 && l.state[BRB_STATE_UNKNOWN] == 0, "its cycles count, and it is no occasion");
    answers(&l, OP(BRB_CODE_READ, 0, BRB_REGISTER_BRBTS_EL1), 0, WRAPPED, "a read of BRBTS_EL1");
    answers(&l, OP(BRB_CODE_WRITE, 0, BRB_REGISTER_BRBTS_EL1, 5), 100, 0, "a write of BRBTS_EL1 is undefined");
    answers(&l, OP(BRB_CODE_FREEZE, 0, 0, 9, 0, 0), 0, 0, "a second overflow");
    answers(&l, OP(BRB_CODE_BRANCH, 0, 0, 0, 8, 12), 0, 0, "a branch after the freeze");
    check(record(&l, 0)[1] == 4096 && record(&l, 1)[0] == 0, "is not recorded");
    answers(&l, OP(BRB_CODE_IALL, 0), 0, 0, "BRB IALL");
    check(l.state[BRB_STATE_BRBTS_EL1] == WRAPPED, "the time stays");
    answers(&l, OP(BRB_CODE_WRITE, 0, BRB_REGISTER_BRBFCR_EL1, BRB_FILTER_ENI), 0, 0, "a write that clears PAUSED");
    answers(&l, OP(BRB_CODE_BRANCH, 3, 0, 0, 8, 12), 0, 0, "a branch after it");
    check(record(&l, 0)[0] == UINT64_C(0x0000400000000043) && record(&l, 0)[1] == 8, "whose count is unknown");
    answers(&l, OP(BRB_CODE_RESET, 0, 8), 0, 0, "a reset");
    check(l.state[BRB_STATE_BRBTS_EL1] == 0, "after which BRBTS_EL1 is 0");
    take_back(&l);
}

/* An overflow that must change nothing but the running count and, where it is one, the flag of an occasion. */
static void keeps_the_time(struct lent *l, uint64_t group, uint64_t occasion, const char *what) {
    uint64_t *state = copied(l->state, l->state_numbers);
    state[BRB_STATE_COUNT] += 5;
    state[BRB_STATE_UNKNOWN] |= occasion;
    answers(l, OP(BRB_CODE_FREEZE, 5, group, 1000, 1500, 0), 0, 0, what);
    check(same(l->state, state, l->state_numbers), what);
    free(state);
}

static void no_freeze(void) {
    struct lent l = recorded_at_el1();
    keeps_the_time(&l, 0, 0, "an overflow of group 0 without FZP");
    keeps_the_time(&l, 1, 0, "an overflow of group 1 without FZP");
    answers(&l, OP(BRB_CODE_WRITE, 0, BRB_REGISTER_BRBCR_EL1, FREEZING), 0, 0, "FZP in BRBCR_EL1");
    keeps_the_time(&l, 1, 0, "an overflow of group 1 with FZP in BRBCR_EL1 alone");
    answers(&l, OP(BRB_CODE_WRITE, 0, BRB_REGISTER_BRBFCR_EL1, BRB_FILTER_PAUSED), 0, 0, "PAUSED");
    keeps_the_time(&l, 0, 0, "an overflow while PAUSED is 1");
    answers(&l, OP(BRB_CODE_WRITE, 0, BRB_REGISTER_BRBFCR_EL1, 0), 0, 0, "PAUSED is cleared");
    answers(&l, OP(BRB_CODE_HALT, 0, 8), 0, 0, "a halt, whose record ends the occasion");
    keeps_the_time(&l, 0, 1, "an overflow while halted");
    refuses(&l, OP(BRB_CODE_FREEZE, 5, 2, 1000, 1500, 0), 4, "4: group 2, halted too");
    answers(&l, OP(BRB_CODE_RESUME, 0, 8, 1), 0, 0, "a resume");
    answers(&l, OP(BRB_CODE_WRITE, 0, BRB_REGISTER_BRBCR_EL1, BRB_CONTROL_FZP), 0, 0, "EL1 is prohibited");
    keeps_the_time(&l, 0, 1, "an overflow at a prohibited level");
    l.room_numbers--;
    refuses(&l, OP(BRB_CODE_FREEZE, 5, 2, 1000, 1500, 0), 4, "4 before 6: group 2 in a room that is too short");
    refuses(&l, OP(BRB_CODE_FREEZE, 5, 0, 1000, 1500, 0), 6, "6: a freeze in a room that is too short");
    take_back(&l);
}

static void refusals(void) {
    struct lent l = lend(BRB_STATE_NUMBERS, 0, BRB_ROOM_NUMBERS(8));
    refuses(&l, OP(11, 5), 2, "2: code 11 before a reset");
    refuses(&l, OP(1, 5, 99), 3, "3: a branch before a reset");
    refuses(&l, OP(0, 5, 9), 4, "4: a size of 9");
    refuses(&l, OP(0, 5, 16), 6, "6: a reset to 16 records in a room for 8");
    answers(&l, OP(0, 5, 8), 0, 0, "a reset to 8 records");
    refuses(&l, OP(UINT64_MAX, 5), 2, "2: the largest code");
    refuses(&l, OP(1, 5, 4), 4, "4: branch type 4");
    refuses(&l, OP(1, 5, 0, 2), 4, "4: a flag of 2");
    refuses(&l, OP(2, 5, 0x25, 3), 4, "4: exception type 0x25");
    refuses(&l, OP(3, 5, 4), 4, "4: level 4");
    refuses(&l, OP(4, 5, 0x80), 4, "4: bit 7 of P");
    refuses(&l, OP(5, 5, 31), 4, "4: register 31");
    refuses(&l, OP(2, 5, 0x22, 1), 5, "5: an exception to a lower level");
    refuses(&l, OP(3, 5, 2), 5, "5: level 2 with EL2 not enabled");
    answers(&l, OP(3, 5, 1), 0, 0, "a return to EL1");
    refuses(&l, OP(4, 5, 0), 5, "5: a platform word at EL1");
    l.room_numbers--;
    refuses(&l, OP(5, 5, 1), 6, "6: a read with a room one number too short");
    l.room_numbers++;
    l.state[0] = 2;
    refuses(&l, OP(11, 5), 7, "7: level 2 with EL2 not enabled, before an unknown code");
    take_back(&l);
}

static void rooms(void) {
    static const uint64_t sizes[] = {8, 16, 32, 64};
    for (size_t i = 0; i < 4; i++) {
        size_t needed = BRB_ROOM_NUMBERS(sizes[i]);
        struct lent fits = lend(BRB_STATE_NUMBERS, 0, needed);
        answers(&fits, OP(0, 1, sizes[i], 1), 0, 0, "a reset in a room that just fits");
        check(fits.room[0] == 0 && fits.room[needed - 1] == 0, "the records are zero");
        check(fits.state[0] == 3 && fits.state[1] == sizes[i] && fits.state[7] == 0, "the state after a reset");
        take_back(&fits);

        struct lent short_room = lend(BRB_STATE_NUMBERS, 0, needed - 1);
        refuses(&short_room, OP(0, 1, sizes[i], 1), 6, "a reset in a room one number too short");
        take_back(&short_room);

        struct lent wide = lend(BRB_STATE_NUMBERS + 2, 0, needed + 2);
        wide.state[BRB_STATE_NUMBERS] = wide.state[BRB_STATE_NUMBERS + 1] = 5;
        answers(&wide, OP(0, 1, sizes[i], 1), 0, 0, "a reset in a wider room");
        check(wide.room[needed] == 7 && wide.room[needed + 1] == 7, "numbers past the needed room are not written");
        check(wide.state[BRB_STATE_NUMBERS] == 5 && wide.state[BRB_STATE_NUMBERS + 1] == 5, "numbers past the state are not written");
        take_back(&wide);
    }
    struct lent empty = lend(BRB_STATE_NUMBERS, 0, 0);
    refuses(&empty, OP(0, 1, 8), 6, "a reset in no room");
    take_back(&empty);
}

/* For each number of a fresh state one that is not sound. BRBTS_EL1 may be any number; before a reset the start is 0. */
static const uint64_t unsound[BRB_STATE_NUMBERS] = {4, 9, 2, 0x80, 4, 4, 1, 1048577, 2, 2, UINT64_MAX, 1};

static void states(void) {
    struct lent fresh = lend(BRB_STATE_NUMBERS, 0, BRB_ROOM_NUMBERS(8));
    for (uint64_t code = 1; code <= BRB_CODE_FREEZE; code++)
        refuses(&fresh, OP(code, 1), 3, "a fresh state takes only a reset");
    fresh.state[BRB_STATE_BRBTS_EL1] = UINT64_MAX;
    answers(&fresh, OP(0, 1, 8), 0, 0, "a reset, whatever BRBTS_EL1 is");
    take_back(&fresh);

    struct lent garbage = lend(BRB_STATE_NUMBERS, UINT64_C(0xDEADBEEFDEADBEEF), BRB_ROOM_NUMBERS(8));
    refuses(&garbage, OP(0, 1, 8), 7, "a garbage state, even for a reset");
    take_back(&garbage);

    for (size_t count = 0; count < BRB_STATE_NUMBERS; count++) {
        struct lent cut = lend(count, 0, BRB_ROOM_NUMBERS(8));
        refuses(&cut, OP(0, 1, 8), 7, "a state that is too short");
        take_back(&cut);
    }

    for (size_t place = 0; place < BRB_STATE_NUMBERS; place++) {
        if (place == BRB_STATE_BRBTS_EL1) continue;
        struct lent l = lend(BRB_STATE_NUMBERS, 0, BRB_ROOM_NUMBERS(8));
        l.state[place] = unsound[place];
        refuses(&l, OP(0, 1, 8), 7, "a state with one number that is not sound");
        take_back(&l);
    }
}

/* The operations that lead to EL1, with this P, recording and counting on, after a reset to this size; and a room whose numbers
 * are then all different, with some past the records. */
static struct lent started(uint64_t size, uint64_t platform) {
    const uint64_t operations[][6] = {{0, 0, size},                {4, 0, platform},  {6, 0, 1, BRB_CONTROL_MASK},
                                      {6, 0, 2, BRB_CONTROL_MASK}, {6, 0, 3, 65536}, {3, 0, 1, 0, 128, 4096}};
    struct lent l = lend(BRB_STATE_NUMBERS, 0, BRB_ROOM_NUMBERS(size) + 2);
    for (size_t i = 0; i < sizeof operations / sizeof operations[0]; i++)
        answers(&l, operations[i], 0, 0, "a session at EL1 of this size");
    check(l.state[BRB_STATE_START] == 0, "a reset puts the start to 0");
    for (size_t i = 0; i < l.room_numbers; i++) l.room[i] = 1000 + i;
    return l;
}

/* Each of the three numbers of a record by a read and by the bank view. */
static void shows(struct lent *l, uint64_t number, const uint64_t expected[3], const char *what) {
    uint64_t size = l->state[BRB_STATE_SIZE], start = l->state[BRB_STATE_START], bank = number / 32, m = number % 32;
    struct brb_answer (*const views[3])(const uint64_t *, size_t, uint64_t, uint64_t, uint64_t, uint64_t) = {
        brb_bank_inf, brb_bank_source, brb_bank_target};
    for (uint64_t part = 0; part < 3; part++) {
        struct brb_answer seen = views[part](l->room, l->room_numbers, size, start, bank, m);
        check(seen.number == BRB_DONE && seen.value == expected[part], what);
        l->state[BRB_STATE_BRBFCR_EL1] = BRB_FILTER_ENI | BRB_FILTER_BANK_IS(bank);
        answers(l, OP(BRB_CODE_READ, 0, 32 + 32 * part + m), 0, expected[part], what);
    }
}

/* Branches, more than there are places: each is written at the place below the start, from place 0 at the last one, and nothing
 * else of the room is. Then every record by its number. */
static void goes_round(uint64_t size) {
    struct lent l = started(size, 49);
    uint64_t *room = copied(l.room, l.room_numbers), events = 2 * size + 3;
    for (uint64_t event = 1; event <= events; event++) {
        uint64_t place = (events * size - event) % size;
        answers(&l, OP(BRB_CODE_BRANCH, event, 0, 0, 5000 + event, 9000 + event), 0, 0, "a branch that is recorded");
        check(l.state[BRB_STATE_START] == place, "the place below the start is the new start");
        check(BRB_INF_VALID_OF(l.room[3 * place]) == BRB_VALID_FULL, "the new record stands there");
        room[3 * place] = l.room[3 * place];
        room[3 * place + 1] = 5000 + event;
        room[3 * place + 2] = 9000 + event;
        check(same(l.room, room, l.room_numbers), "nothing else is written");
    }
    for (uint64_t number = 0; number < size; number++) {
        check(record(&l, number)[1] == 5000 + events - number, "a record by its number");
        shows(&l, number, record(&l, number), "a record, read and seen");
    }
    static const uint64_t nothing[3];
    if (size < 64) shows(&l, size, nothing, "what is not below the size");
    free(room);
    take_back(&l);
}

/* What becomes of a start that is not 0: P, the operations from EL1 on, the answer of the last, and whether it stays. */
static void starts(uint64_t size) {
    static const struct {
        uint64_t platform, level, operation[6], number, stays;
    } cases[] = {
        {49, 1, {BRB_CODE_IALL, 5}, BRB_DONE, 0},
        {0x131, 1, {BRB_CODE_IALL, 5}, BRB_TRAP2, 1},
        {33, 1, {BRB_CODE_IALL, 5}, BRB_TRAP3, 1},
        {49, 0, {BRB_CODE_IALL, 5}, BRB_UNDEFINED, 1},
        {49, 1, {BRB_CODE_RESET, 5, 8}, BRB_DONE, 0},
        {49, 1, {BRB_CODE_WRITE, 5, 3, 128}, BRB_DONE, 1},
        {49, 3, {BRB_CODE_BRANCH, 5, 0, 0, 8, 12}, BRB_DONE, 1},
    };
    for (size_t i = 0; i < sizeof cases / sizeof cases[0]; i++) {
        struct lent l = started(size, cases[i].platform);
        uint64_t start = l.state[BRB_STATE_START] = size / 2 + 1, *room = copied(l.room, l.room_numbers);
        l.state[BRB_STATE_LEVEL] = cases[i].level;
        answers(&l, cases[i].operation, cases[i].number, 0, "with a start that is not 0");
        size_t zeros = cases[i].stays ? 0 : BRB_ROOM_NUMBERS(l.state[BRB_STATE_SIZE]);
        memset(room, 0, zeros * sizeof *room);
        check(l.state[BRB_STATE_START] == (cases[i].stays ? start : 0), "what becomes of the start");
        check(same(l.room, room, l.room_numbers), "what becomes of the room");
        free(room);
        take_back(&l);
    }
}

/* A start that the size has not, or that is not 0 before a reset, is 7 to every operation; and so are eleven numbers. */
static void unsound_starts(uint64_t size) {
    struct lent l = size ? started(size, 49) : lend(BRB_STATE_NUMBERS, 0, BRB_ROOM_NUMBERS(8));
    const uint64_t wrong[] = {size ? size : 1, size + 1, 64, 65, UINT64_C(1) << 32, UINT64_MAX / 3 + 1, UINT64_MAX};
    for (size_t i = 0; i < sizeof wrong / sizeof wrong[0]; i++) {
        l.state[BRB_STATE_START] = wrong[i];
        for (uint64_t code = 0; code <= BRB_CODE_FREEZE + 1; code++)
            refuses(&l, OP(code, 5, 8), 7, "7: a start that is not below the size");
    }
    for (uint64_t start = size; start < 64; start++) {
        l.state[BRB_STATE_START] = start ? start : 1;
        refuses(&l, OP(0, 5, 8), 7, "7: a start from the size to 63");
    }
    l.state[BRB_STATE_START] = 0;
    l.state_numbers = BRB_STATE_START;
    refuses(&l, OP(0, 5, 8), 7, "7: eleven numbers");
    l.state_numbers = BRB_STATE_NUMBERS;
    answers(&l, OP(0, 5, 8), 0, 0, "twelve of them are a state");
    take_back(&l);
}

/* In the bank view 4 comes first, then 7, then 6. */
static void bank_refusals(uint64_t size) {
    static const uint64_t above[] = {0, 1, 7, UINT64_C(1) << 32, UINT64_MAX - 64};
    size_t enough = BRB_ROOM_NUMBERS(size);
    uint64_t *room = numbers(enough, 7);
    for (uint64_t start = 0; start < size; start++) {
        check(brb_bank_inf(room, enough, size, start, 0, 0).value == 7, "a start below the size");
        check(brb_bank_inf(room, enough - 1, size, start, 0, 0).number == 6, "6: one number too few");
        check(brb_bank_source(room, enough - 1, size, start, 3, 31).number == 6, "6: past the size too");
    }
    for (size_t i = 0; i < sizeof above / sizeof above[0]; i++) {
        uint64_t start = size + above[i];
        check(brb_bank_inf(room, enough, size, start, 0, 0).number == 7, "7: a start that is not below the size");
        check(brb_bank_source(room, enough - 1, size, start, 0, 0).number == 7, "7 before 6");
        check(brb_bank_target(room, 0, size, start, 3, 31).number == 7, "7: past the size too");
        check(brb_bank_inf(room, enough, size + 1, start, 0, 0).number == 4, "4 before 7: the size");
        check(brb_bank_source(room, enough, size, start, 4, 0).number == 4, "4 before 7: the bank");
        check(brb_bank_target(room, 0, size, start, 0, 32).number == 4, "4 before 7 and 6: m");
    }
    free(room);
}

static void round_buffer(void) {
    for (uint64_t size = 8; size <= 64; size *= 2) {
        goes_round(size);
        starts(size);
        unsound_starts(size);
        bank_refusals(size);
    }
    unsound_starts(0);
}

static int is(struct brb_spread spread, uint64_t number, uint64_t low, uint64_t high, uint64_t bounded) {
    return spread.number == number && spread.low == low && spread.high == high && spread.bounded == bounded;
}

static void counts(void) {
    static const uint64_t marked[][2] = {{0, 0},           {255, 0xFF},         {256, 0x100},        {511, 0x1FF},
                                         {513, 0x200},     {1048575, 0xCFF},    {1048576, 0x3FFF}};
    for (size_t i = 0; i < sizeof marked / sizeof marked[0]; i++)
        check(brb_count_encode(marked[i][0]) == marked[i][1], "P1 to P7: count to CC");
    check(is(brb_count_decode(0xCFF), 0, 1046528, 1048575, 1), "P8: CC to the smallest and the largest count");
    check(is(brb_count_decode(0xFF), 0, 255, 255, 1), "E 0: one count");
    check(is(brb_count_decode(0x200), 0, 512, 513, 1), "E 2: two counts");
    check(is(brb_count_decode(0x3FFF), 0, 1048576, 0, 0), "exceeded: no upper end");
    check(is(brb_count_decode(0xD00), 4, 0, 0, 0), "no count has this encoding");
    check(is(brb_count_decode(UINT64_MAX), 4, 0, 0, 0), "no count has the largest number for its encoding");
}

/* The sum of these encodings, in an area of their own, which has to stay as it is. */
static struct brb_spread sum(const uint64_t *cc, size_t count) {
    uint64_t *area = copied(cc, count);
    struct brb_spread spread = brb_count_sum(area, count);
    check(same(area, cc, count), "a sum leaves its encodings as they are");
    free(area);
    return spread;
}

static void sums(void) {
    static const uint64_t cc[] = {0x7C4, 0x12C, 0x3FFF, 1, 0xD00}, refused[] = {0xD00, 0x7C4, 0x3FFF};
    check(is(sum(cc, 0), 0, 0, 0, 1), "no encodings: 0, with an upper end");
    check(is(sum(cc, 1), 0, 28928, 28991, 1), "one encoding: what it decodes to");
    check(is(sum(cc, 2), 0, 29228, 29291, 1), "0x7C4 and 0x12C");
    check(is(sum(cc, 3), 0, 29228 + 1048576, 0, 0), "one that exceeded: no upper end");
    check(is(sum(cc, 4), 0, 29229 + 1048576, 0, 0), "what is behind it is added");
    check(is(sum(cc, 5), 4, 0, 0, 0), "4: 0xD00 at the end, behind one that exceeded");
    check(is(sum(refused, 3), 4, 0, 0, 0), "4: 0xD00 at the front, before one that exceeded");
    check(is(sum(refused, 1), 4, 0, 0, 0), "4: 0xD00 alone");
    uint64_t *many = numbers(5000, 0xCFF);
    check(is(sum(many, 5000), 0, UINT64_C(5232640000), UINT64_C(5242875000), 1), "a sum above 2^32");
    free(many);
}

/* What the counts of two records say of the 29,288 cycles since the one before them. */
static void sum_of_records(void) {
    struct lent l = lend(BRB_STATE_NUMBERS, 0, BRB_ROOM_NUMBERS(8));
    static const uint64_t operations[][6] = {{0, 0, 8},           {4, 0, 49},            {6, 0, 1, 10},
                                             {6, 0, 2, 8},        {6, 0, 3, 65536},      {3, 0, 1, 0, 128, 4096},
                                             {1, 7, 0, 0, 8, 12}, {1, 300, 0, 0, 8, 12}, {1, 28988, 0, 0, 8, 12}};
    for (size_t i = 0; i < sizeof operations / sizeof operations[0]; i++)
        answers(&l, operations[i], 0, 0, "three branches that are recorded");
    check(BRB_INF_CCU_OF(record(&l, 0)[0]) == 0 && BRB_INF_CCU_OF(record(&l, 1)[0]) == 0, "two known counts");
    check(BRB_INF_VALID_OF(record(&l, 2)[0]) == BRB_VALID_FULL, "the record before them");
    uint64_t cc[] = {BRB_INF_CC_OF(record(&l, 0)[0]), BRB_INF_CC_OF(record(&l, 1)[0])};
    struct brb_spread spread = sum(cc, 2);
    check(is(spread, 0, 29228, 29291, 1), "the sum of the two counts");
    check(spread.low <= 29288 && 29288 <= spread.high, "the cycles lie between its ends");
    take_back(&l);
}

/* A run of bytes and the numbers for its answers, lent with their lengths. */
struct run {
    uint8_t *bytes;
    uint64_t *answers;
    size_t length, answer_numbers;
};

/* What stands in answers before a call. */
#define BEFORE UINT64_C(0xB47CB47C)

/* The first `length` of these bytes, in an area of their own. */
static struct run lend_run(const uint8_t *bytes, size_t length, size_t answer_numbers) {
    struct run r = {malloc(length ? length : 1), numbers(answer_numbers, BEFORE), length, answer_numbers};
    if (!r.bytes) {
        perror("c host");
        exit(2);
    }
    if (length) memcpy(r.bytes, bytes, length);
    return r;
}

static void take_back_run(struct run *r) {
    free(r->bytes);
    free(r->answers);
}

static struct brb_answer batch(struct lent *l, struct run *r) {
    return brb_batch(l->state, l->state_numbers, l->room, l->room_numbers, r->bytes, r->length, r->answers,
                     r->answer_numbers);
}

/* A batch of these bytes that must be refused with this number, the value 0, and nothing changed. */
static void batch_refuses(struct lent *l, const uint8_t *bytes, size_t length, size_t answer_numbers, uint64_t number,
                          const char *what) {
    struct run r = lend_run(bytes, length, answer_numbers);
    uint64_t *state = copied(l->state, l->state_numbers), *room = copied(l->room, l->room_numbers);
    struct brb_answer answer = batch(l, &r);
    check(answer.number == number && answer.value == 0, what);
    check(same(l->state, state, l->state_numbers) && same(l->room, room, l->room_numbers), what);
    for (size_t i = 0; i < answer_numbers; i++) check(r.answers[i] == BEFORE, what);
    free(state);
    free(room);
    take_back_run(&r);
}

/* A batch of these bytes from a fresh state, which must be what calls of brb_step_recorded are, one after another: state, room
 * and answers, with a number past those of each. Answers how many operations there were. */
static size_t batch_is_single_calls(const uint8_t *bytes, size_t length, size_t room_numbers, const char *what) {
    struct lent one = lend(BRB_STATE_NUMBERS + 1, 0, room_numbers), each = lend(BRB_STATE_NUMBERS + 1, 0, room_numbers);
    struct run r = lend_run(bytes, length, 0);
    one.state[BRB_STATE_NUMBERS] = each.state[BRB_STATE_NUMBERS] = 5;
    uint64_t *answers = numbers(BRB_BATCH_NUMBERS(length) + 1, BEFORE);
    size_t count = 0;
    for (size_t at = 0; at < length;) {
        struct brb_recorded s = brb_step_recorded(each.state, each.state_numbers, each.room, room_numbers, r.bytes, length, at);
        answers[BRB_ANSWER_NUMBERS * count] = s.number;
        answers[BRB_ANSWER_NUMBERS * count++ + 1] = s.value;
        at = s.number == BRB_REFUSED_MALFORMED || s.number == BRB_REFUSED_CODE ? length : s.next;
    }
    take_back_run(&r);
    if (count) batch_refuses(&one, bytes, length, BRB_ANSWER_NUMBERS * count - 1, BRB_REFUSED_ROOM, what);
    r = lend_run(bytes, length, BRB_ANSWER_NUMBERS * count + 1);
    struct brb_answer answer = batch(&one, &r);
    check(answer.number == BRB_DONE && answer.value == count, what);
    check(same(r.answers, answers, r.answer_numbers), what);
    check(same(one.state, each.state, one.state_numbers) && same(one.room, each.room, room_numbers), what);
    take_back_run(&r);
    free(answers);
    take_back(&one);
    take_back(&each);
    return count;
}

/* Session S1 as a recording. */
static const uint8_t s1[59] = {
    0, 0, 8, 0, 4, 0, 49, 6, 0, 1, 10, 6, 0, 2, 8, 6, 0, 3, 0x80, 0x80, 4, 3, 0, 1, 0, 0x80, 1, 0x80, 0x20, 1, 0xAC, 2, 0, 0,
    0x84, 0x20, 0x90, 0x20, 1, 0xAC, 2, 8, 1, 0x90, 0x20, 0x80, 0x20, 5, 0, 32, 5, 0, 33, 5, 0, 64, 5, 0, 2};

static void batch_of_s1(void) {
    static const size_t enough[] = {24, 25, BRB_BATCH_NUMBERS(sizeof s1)};
    static const uint64_t reads[8] = {0, UINT64_C(0x0000012C00000843), 0, UINT64_C(0x0000400000000043), 0, 0x1010, 100, 0};
    for (size_t i = 0; i < 3; i++) {
        struct lent l = lend(BRB_STATE_NUMBERS, 0, BRB_ROOM_NUMBERS(64));
        struct run r = lend_run(s1, sizeof s1, enough[i]);
        struct brb_answer answer = batch(&l, &r);
        check(answer.number == 0 && answer.value == 12, "S1 as a batch: twelve answers");
        for (size_t n = 0; n < 16; n++) check(r.answers[n] == 0, "S1 as a batch: what is done");
        check(same(r.answers + 16, reads, 8), "S1 as a batch: the four reads");
        for (size_t n = 24; n < enough[i]; n++) check(r.answers[n] == BEFORE, "S1 as a batch: past the answers");
        take_back_run(&r);
        take_back(&l);
    }
    struct lent fresh = lend(BRB_STATE_NUMBERS, 0, BRB_ROOM_NUMBERS(64));
    for (size_t few = 0; few < 24; few++) batch_refuses(&fresh, s1, sizeof s1, few, 6, "6: S1 with too few for its answers");
    for (size_t few = 0; few < 24; few++) batch_refuses(&fresh, s1, 58, few, 6, "6: S1 cut off, with too few");
    struct run cut = lend_run(s1, 58, 24);
    struct brb_answer answer = batch(&fresh, &cut);
    check(answer.number == 0 && answer.value == 12, "S1 cut off: twelve answers");
    check(cut.answers[22] == 1 && cut.answers[23] == 0, "S1 cut off: the last is 1");
    take_back_run(&cut);
    take_back(&fresh);
}

static void batch_states(void) {
    for (size_t place = 0; place < BRB_STATE_NUMBERS; place++) {
        if (place == BRB_STATE_BRBTS_EL1) continue;
        struct lent l = lend(BRB_STATE_NUMBERS, 0, BRB_ROOM_NUMBERS(8));
        l.state[place] = unsound[place];
        batch_refuses(&l, s1, sizeof s1, 24, 7, "7: a batch on a state that is not sound");
        batch_refuses(&l, s1, sizeof s1, 23, 7, "7 before 6");
        batch_refuses(&l, s1, 0, 0, 7, "7: no bytes on a state that is not sound");
        take_back(&l);
    }
    for (size_t count = 0; count < BRB_STATE_NUMBERS; count++) {
        struct lent cut = lend(count, 0, BRB_ROOM_NUMBERS(8));
        batch_refuses(&cut, s1, sizeof s1, 24, 7, "7: a batch on a state that is too short");
        batch_refuses(&cut, s1, 0, 2, 7, "7: no bytes on a state that is too short");
        take_back(&cut);
    }
}

/* No bytes, refused operations in the middle, halts, freezes, an unknown code, and S1 with each byte cut and changed. */
static void batch_runs(void) {
    static const uint8_t refused[] = {7, 0, 0, 0, 9, 0, 0, 0, 16, 0, 0, 0, 8, 0, 2, 0, 34, 0, 0, 0, 5, 0, 0};
    static const uint8_t halted[] = {0, 0, 8, 0, 9, 0, 4, 3, 8, 5, 4, 8, 5, 4, 1, 0, 0, 0, 4, 8, 4, 0, 49, 5, 0, 0, 9, 5, 8, 1, 5, 0, 2};
    static const uint8_t frozen[] = {0, 0, 8, 0, 4, 0, 49, 6, 0, 1, 0xA2, 2, 3, 0, 1, 0, 0, 0, 10, 40, 0, 0xE8, 7, 0xDC, 0x0B, 0,
                                     5, 0, 4, 6, 0, 4, 1, 10, 0, 2, 0, 0, 0, 5, 0, 3};
    static const uint8_t unknown[] = {0, 0, 8, 0, 11, 5, 0, 0};
    check(batch_is_single_calls(s1, 0, BRB_ROOM_NUMBERS(8), "no bytes") == 0, "no bytes have no answer");
    check(batch_is_single_calls(refused, sizeof refused, BRB_ROOM_NUMBERS(8), "3, 4, 6 and 5") == 6, "it goes on");
    check(batch_is_single_calls(halted, sizeof halted, BRB_ROOM_NUMBERS(8), "halts and 8") == 9, "it goes on after 8");
    check(batch_is_single_calls(frozen, sizeof frozen, BRB_ROOM_NUMBERS(8), "a freeze") == 9, "it goes on after a freeze");
    check(batch_is_single_calls(unknown, sizeof unknown, BRB_ROOM_NUMBERS(8), "an unknown code") == 2, "2 is the last");
    check(batch_is_single_calls(s1, sizeof s1, 0, "no room") == 12, "each has its own 6");
    for (size_t i = 0; i < sizeof s1; i++) {
        uint8_t changed[sizeof s1];
        memcpy(changed, s1, sizeof s1);
        changed[i] ^= 0x80;
        batch_is_single_calls(changed, sizeof changed, BRB_ROOM_NUMBERS(8), "S1 with a byte changed");
        batch_is_single_calls(s1, i, BRB_ROOM_NUMBERS(8), "S1 cut off");
    }
}

#define NINE(...) ((const uint64_t[9]){__VA_ARGS__})

static int is_parting(struct brb_parting p, const uint64_t wanted[9]) {
    const uint64_t nine[9] = {p.number,    p.which,   p.at,      p.equal,      p.ends_first,
                              p.differing, p.rest_of, p.rest_at, p.rest_length};
    return same(nine, wanted, 9);
}

/* Two recordings, each in an area of its own, that must part so. */
static void parts(const uint8_t *first, size_t first_length, const uint8_t *second, size_t second_length,
                  const uint64_t wanted[9], const char *what) {
    struct run one = lend_run(first, first_length, 0), other = lend_run(second, second_length, 0);
    check(is_parting(brb_compare(one.bytes, first_length, other.bytes, second_length), wanted), what);
    take_back_run(&one);
    take_back_run(&other);
}

/* The manual's example: a branch and a BRB IALL; the branch with other numbers, the BRB IALL, and a platform word. */
static const uint8_t shorter[9] = {1, 5, 0, 0, 64, 0x80, 1, 7, 3};
static const uint8_t longer[12] = {1, 5, 0, 1, 64, 0x84, 1, 7, 3, 4, 0, 49};

static void partings(void) {
    const uint64_t both = BRB_DIFFERING_B | BRB_DIFFERING_D;
    parts(shorter, 9, longer, 12, NINE(0, 0, 0, 0, BRB_FIRST, both, BRB_SECOND, 9, 3), "the manual's example");
    parts(longer, 12, shorter, 9, NINE(0, 0, 0, 0, BRB_SECOND, both, BRB_FIRST, 9, 3), "the manual's example, swapped");
    parts(shorter, 9, longer, 9, NINE(0, 0, 0, 0, BRB_NEITHER, both, BRB_FIRST, 9, 0), "as many operations, unequal");
    struct brb_parting p = brb_compare(shorter, 9, longer, 12);
    check(memcmp(longer + p.rest_at, "\4\0\61", (size_t)p.rest_length) == 0, "the rest is the platform word");

    parts(s1, 59, s1, 59, NINE(0, 0, 0, 12, 0, 0, BRB_FIRST, 59, 0), "S1 beside a copy of it");
    check(is_parting(brb_compare(s1, 59, s1, 59), NINE(0, 0, 0, 12, 0, 0, BRB_FIRST, 59, 0)), "S1 beside itself");
    parts(s1, 38, s1, 59, NINE(0, 0, 0, 7, BRB_FIRST, 0, BRB_SECOND, 38, 21), "S1 up to its first branch beside S1");
    parts(s1, 59, s1, 38, NINE(0, 0, 0, 7, BRB_SECOND, 0, BRB_FIRST, 38, 21), "S1 beside S1 up to its first branch");
    parts(s1, 0, s1, 59, NINE(0, 0, 0, 0, BRB_FIRST, 0, BRB_SECOND, 0, 59), "no operations beside S1");
    parts(s1, 0, s1, 0, NINE(0, 0, 0, 0, 0, 0, BRB_FIRST, 0, 0), "no operations beside no operations");
    check(is_parting(brb_compare(NULL, 0, s1, 4), NINE(0, 0, 0, 0, BRB_FIRST, 0, BRB_SECOND, 0, 4)), "NULL beside a reset");
    check(is_parting(brb_compare(s1, 4, NULL, 0), NINE(0, 0, 0, 0, BRB_SECOND, 0, BRB_FIRST, 0, 4)), "a reset beside NULL");
    check(is_parting(brb_compare(s1, 59, s1 + 4, 55), NINE(0, 0, 0, 0, BRB_SECOND, BRB_DIFFERING_CODE, BRB_FIRST, 56, 3)),
          "two areas that overlap");
}

/* Each number of a branch and of an operation of each other length that differs alone. */
static void parting_fields(void) {
    static const uint8_t branch[6] = {BRB_CODE_BRANCH, 5, 0, 0, 64, 65};
    static const uint64_t bits[6] = {BRB_DIFFERING_CODE, BRB_DIFFERING_CYCLES, BRB_DIFFERING_A,
                                     BRB_DIFFERING_B,    BRB_DIFFERING_C,      BRB_DIFFERING_D};
    for (size_t place = 0; place < 6; place++) {
        uint8_t other[6];
        memcpy(other, branch, sizeof other);
        other[place]++;
        parts(branch, 6, other, 6, NINE(0, 0, 0, 0, 0, bits[place], BRB_FIRST, 6, 0), "a branch with one other number");
    }
    static const uint8_t all[6] = {BRB_CODE_FREEZE, 6, 1, 1, 65, 66}, freeze[6] = {BRB_CODE_FREEZE, 5, 0, 0, 64, 65};
    parts(freeze, 6, all, 6, NINE(0, 0, 0, 0, 0, 0x3E, BRB_FIRST, 6, 0), "a freeze with five other numbers");
    parts(branch, 6, all, 6, NINE(0, 0, 0, 0, 0, BRB_DIFFERING_CODE, BRB_FIRST, 6, 0), "the code alone where codes differ");
    static const uint8_t few[5] = {7, 0, 5, 0, 32}, many[6] = {7, 0, 5, 0, 33, 7};
    parts(few, 5, many, 5, NINE(0, 0, 0, 1, 0, BRB_DIFFERING_A, BRB_FIRST, 5, 0), "a read of another register");
    parts(few, 2, many, 5, NINE(0, 0, 0, 1, BRB_FIRST, 0, BRB_SECOND, 2, 3), "a BRB IALL has no field behind its cycles");
}

/* Bad numbers: in the first, in the second, in both, wherever they stand. */
static void parting_refusals(void) {
    static const uint8_t malformed[6] = {7, 0, 5, 0, 0x80, 0}, unknown[3] = {7, 0, 11}, code[1] = {11};
    parts(malformed, 6, s1, 59, NINE(1, BRB_FIRST, 4), "1: a malformed number in the first");
    parts(s1, 59, malformed, 6, NINE(1, BRB_SECOND, 4), "1: a malformed number in the second");
    parts(malformed, 6, malformed, 4, NINE(1, BRB_FIRST, 4), "1: a malformed number before a missing one");
    parts(s1, 59, malformed, 4, NINE(1, BRB_SECOND, 4), "1: a missing number is at the length");
    parts(malformed, 5, s1, 0, NINE(1, BRB_FIRST, 4), "1: a number that is cut off starts where it starts");
    parts(unknown, 3, s1, 59, NINE(2, BRB_FIRST, 2), "2: an unknown code in the first");
    parts(s1, 59, unknown, 3, NINE(2, BRB_SECOND, 2), "2: an unknown code in the second");
    parts(malformed, 6, code, 1, NINE(1, BRB_FIRST, 4), "the first's, though the second's stands further in front");
    parts(code, 1, malformed, 6, NINE(2, BRB_FIRST, 0), "the first's, which stands further in front");
    parts(malformed, 2, malformed, 6, NINE(1, BRB_SECOND, 4), "1: behind the first's end");
    parts(shorter, 9, unknown, 3, NINE(2, BRB_SECOND, 2), "2: behind an unequal pair");
    check(is_parting(brb_compare(unknown, 3, unknown, 3), NINE(2, BRB_FIRST, 2)), "2: beside itself");
    check(is_parting(brb_compare(NULL, 0, unknown, 3), NINE(2, BRB_SECOND, 2)), "2: NULL beside an unknown code");
}

/* What calls of brb_step_recorded find in a recording: how many operations, and what ends them. */
struct walk {
    uint64_t operations, number, at;
};

static struct walk walked(const uint8_t *bytes, size_t length) {
    struct walk w = {0, 0, 0};
    uint64_t state[BRB_STATE_NUMBERS] = {0};
    while (w.at < length) {
        struct brb_recorded r = brb_step_recorded(state, BRB_STATE_NUMBERS, NULL, 0, bytes, length, w.at);
        w.at = r.next;
        if (r.number == BRB_REFUSED_MALFORMED || r.number == BRB_REFUSED_CODE) {
            w.number = r.number;
            break;
        }
        w.operations++;
    }
    return w;
}

/* S1 beside itself, cut and changed at each byte: bad numbers, and which has more operations, are those of single calls. */
static void parting_of_s1(void) {
    for (size_t i = 0; i < sizeof s1; i++) {
        struct walk cut = walked(s1, i);
        parts(s1, i, s1, 59,
              cut.number ? NINE(cut.number, BRB_FIRST, cut.at) : NINE(0, 0, 0, cut.operations, BRB_FIRST, 0, BRB_SECOND, i, 59 - i),
              "S1 cut off beside S1");
        uint8_t changed[sizeof s1];
        memcpy(changed, s1, sizeof s1);
        changed[i] ^= 0x80;
        struct walk w = walked(changed, sizeof changed);
        struct brb_parting p = brb_compare(s1, sizeof s1, changed, sizeof changed);
        check(p.number == w.number && (!w.number || (p.which == BRB_SECOND && p.at == w.at)), "S1 with a byte changed: bad");
        check(w.number || p.differing, "S1 with a byte changed: unequal");
        uint64_t first = w.operations > 12 ? BRB_FIRST : w.operations < 12 ? BRB_SECOND : BRB_NEITHER;
        check(w.number || p.ends_first == first, "S1 with a byte changed: which ends first");
    }
}

int main(void) {
    session_s1();
    halt_and_resume();
    halts();
    freeze_and_go_on();
    no_freeze();
    refusals();
    rooms();
    states();
    round_buffer();
    counts();
    sums();
    sum_of_records();
    batch_of_s1();
    batch_states();
    batch_runs();
    partings();
    parting_fields();
    parting_refusals();
    parting_of_s1();
    if (failed) {
        printf("c host: %u checks failed, %u passed\n", failed, passed);
        return EXIT_FAILURE;
    }
    printf("c host: %u checks passed\n", passed);
    return EXIT_SUCCESS;
}
