/* No memory at all: every lent area of every function as NULL with the length 0, alone and with the others. */
#include "brb.h"
#include <stdio.h>

#define TEST "nothing"
#include "check.h"

static int is(struct brb_answer answer, uint64_t number) { return answer.number == number && answer.value == 0; }

static uint64_t state[BRB_STATE_NUMBERS], room[BRB_LARGEST_ROOM];

static void steps(void) {
    for (uint64_t code = 0; code <= BRB_CODE_FREEZE + 1; code++) {
        check(is(brb_step(NULL, 0, NULL, 0, code, 1, 8, 0, 0, 0), 7), "brb_step: no state and no room");
        check(is(brb_step(NULL, 0, room, BRB_LARGEST_ROOM, code, 1, 8, 0, 0, 0), 7), "brb_step: no state");
    }
    check(is(brb_step(state, BRB_STATE_NUMBERS, NULL, 0, BRB_CODE_RESET, 1, 8, 0, 0, 0), 6), "brb_step: no room");
    check(is(brb_read(NULL, 0, NULL, 0, 1, 0), 7), "brb_read: no state and no room");
    check(is(brb_read(NULL, 0, room, BRB_LARGEST_ROOM, 1, 0), 7), "brb_read: no state");
    check(is(brb_read(state, BRB_STATE_NUMBERS, NULL, 0, 1, 0), 3), "brb_read: no room, before a reset");
    brb_step(state, BRB_STATE_NUMBERS, room, BRB_LARGEST_ROOM, BRB_CODE_RESET, 0, 64, 1, 0, 0);
    for (uint64_t reg = 0; reg < 128; reg++) {
        uint64_t number = reg > BRB_REGISTER_BRBTS_EL1 && reg < 32 ? 4 : 6;
        check(is(brb_read(state, BRB_STATE_NUMBERS, NULL, 0, 1, reg), number), "brb_read: no room");
    }
    static const uint64_t permitted[][2] = {{64, 0}, {BRB_TYPE_RTN, 0}, {BRB_TYPE_IRQ, 3}, {3, 0}, {49, 0}, {32, 0},
                                            {3, 0},  {0, 0},            {4, 0},            {4, 3}, {1, 4}};
    for (uint64_t code = 0; code <= BRB_CODE_FREEZE; code++) {
        const uint64_t *f = permitted[code];
        struct brb_answer answer = brb_step(state, BRB_STATE_NUMBERS, NULL, 0, code, 1, f[0], f[1], 0, 0);
        check(is(answer, code == BRB_CODE_RESUME ? 8 : 6), "brb_step: no room, after a reset");
    }
    brb_step(state, BRB_STATE_NUMBERS, room, BRB_LARGEST_ROOM, BRB_CODE_HALT, 1, 4, 0, 0, 0);
    check(is(brb_step(state, BRB_STATE_NUMBERS, NULL, 0, BRB_CODE_HALT, 1, 4, 0, 0, 0), 8), "brb_step: no room, halted twice");
    check(is(brb_step(state, BRB_STATE_NUMBERS, NULL, 0, BRB_CODE_RESUME, 1, 4, 3, 0, 0), 6), "brb_step: no room, halted");
}

static void banks(void) {
    static const uint64_t starts[] = {0, 1, 63, 64, UINT64_MAX};
    for (uint64_t i = 0; i < 5 * 5 * 33; i++) {
        uint64_t start = starts[i % 5], bank = i / 5 % 5, m = i / 25;
        uint64_t number = bank > 3 || m > 31 ? 4 : start > 63 ? 7 : 6;
        check(is(brb_bank_inf(NULL, 0, 64, start, bank, m), number), "brb_bank_inf: no room");
        check(is(brb_bank_source(NULL, 0, 64, start, bank, m), number), "brb_bank_source: no room");
        check(is(brb_bank_target(NULL, 0, 64, start, bank, m), number), "brb_bank_target: no room");
    }
}

static void sums(void) {
    struct brb_spread spread = brb_count_sum(NULL, 0);
    check(spread.number == 0 && spread.low == 0, "brb_count_sum: no encodings add up to 0");
    check(spread.high == 0 && spread.bounded == 1, "brb_count_sum: no encodings have an upper end");
}

static void recordings(void) {
    static const uint8_t reset[] = {0, 0, 8, 0};
    uint64_t place[BRB_OPERATION_NUMBERS] = {0};
    static const size_t ats[] = {0, 1, SIZE_MAX};
    for (size_t i = 0; i < 3; i++) {
        size_t at = ats[i];
        check(is(brb_recording_read(NULL, 0, at, place, BRB_OPERATION_NUMBERS), 1), "brb_recording_read: no bytes");
        check(is(brb_recording_read(NULL, 0, at, NULL, 0), 6), "brb_recording_read: no bytes and no place");
        check(is(brb_recording_read(reset, sizeof reset, at, NULL, 0), 6), "brb_recording_read: no place");
        for (uint64_t code = 0; code <= BRB_CODE_FREEZE + 1; code++) {
            uint64_t number = code > BRB_CODE_FREEZE ? 2 : 6;
            check(is(brb_recording_write(NULL, 0, at, code, 1, 2, 3, 4, 5), number), "brb_recording_write");
        }
    }
}

static void recorded(void) {
    static const uint8_t reset[] = {0, 0, 8, 0};
    struct brb_recorded r = brb_step_recorded(NULL, 0, NULL, 0, NULL, 0, 0);
    check(r.number == 7 && r.value == 0 && r.next == 0, "brb_step_recorded: nothing at all");
    r = brb_step_recorded(NULL, 0, room, BRB_LARGEST_ROOM, reset, sizeof reset, 0);
    check(r.number == 7 && r.next == 0, "brb_step_recorded: no state");
    r = brb_step_recorded(state, BRB_STATE_NUMBERS, room, BRB_LARGEST_ROOM, NULL, 0, 0);
    check(r.number == 1 && r.next == 0, "brb_step_recorded: no bytes");
    r = brb_step_recorded(state, BRB_STATE_NUMBERS, NULL, 0, NULL, 0, 0);
    check(r.number == 1 && r.next == 0, "brb_step_recorded: no room and no bytes");
    r = brb_step_recorded(state, BRB_STATE_NUMBERS, NULL, 0, reset, sizeof reset, 0);
    check(r.number == 6 && r.next == 4, "brb_step_recorded: no room");
}

/* A reset in a batch, with each set of what is not lent: bit 0 the state, 1 the room, 2 the bytes, 3 the answers. */
static void batches(void) {
    static const uint8_t reset[] = {0, 0, 8, 0};
    for (unsigned missing = 0; missing < 16; missing++) {
        uint64_t fresh[BRB_STATE_NUMBERS] = {0}, answers[BRB_ANSWER_NUMBERS] = {9, 9};
        int no_state = missing & 1, no_room = missing >> 1 & 1, no_bytes = missing >> 2 & 1, no_answers = missing >> 3;
        struct brb_answer answer =
            brb_batch(no_state ? NULL : fresh, no_state ? 0 : BRB_STATE_NUMBERS, no_room ? NULL : room,
                      no_room ? 0 : BRB_LARGEST_ROOM, no_bytes ? NULL : reset, no_bytes ? 0 : sizeof reset,
                      no_answers ? NULL : answers, no_answers ? 0 : BRB_ANSWER_NUMBERS);
        uint64_t number = no_state ? 7 : !no_bytes && no_answers ? 6 : 0;
        int done = number == 0 && !no_bytes;
        check(answer.number == number && answer.value == (uint64_t)done, "brb_batch: what it answers");
        check(answers[0] == (done ? no_room ? 6 : 0 : 9) && answers[1] == (done ? 0 : 9), "brb_batch: its answers");
        check(fresh[BRB_STATE_SIZE] == (done && !no_room ? 8 : 0), "brb_batch: the state");
    }
}

static int parts(struct brb_parting p, uint64_t ends_first, uint64_t rest_of, uint64_t rest_length) {
    int told = p.number == 0 && p.which == 0 && p.at == 0 && p.equal == 0 && p.differing == 0 && p.rest_at == 0;
    return told && p.ends_first == ends_first && p.rest_of == rest_of && p.rest_length == rest_length;
}

static void comparisons(void) {
    static const uint8_t reset[] = {0, 0, 8, 0};
    check(parts(brb_compare(NULL, 0, NULL, 0), BRB_NEITHER, BRB_FIRST, 0), "brb_compare: no bytes on either side");
    check(parts(brb_compare(NULL, 0, reset, 0), BRB_NEITHER, BRB_FIRST, 0), "brb_compare: no bytes, one pointer");
    check(parts(brb_compare(reset, 0, NULL, 0), BRB_NEITHER, BRB_FIRST, 0), "brb_compare: no bytes, the other pointer");
    check(parts(brb_compare(NULL, 0, reset, sizeof reset), BRB_FIRST, BRB_SECOND, 4), "brb_compare: no first");
    check(parts(brb_compare(reset, sizeof reset, NULL, 0), BRB_SECOND, BRB_FIRST, 4), "brb_compare: no second");
    struct brb_parting p = brb_compare(NULL, 0, reset, 3);
    check(p.number == 1 && p.which == BRB_SECOND && p.at == 3, "brb_compare: no first, and a second that is cut off");
    p = brb_compare(reset, 3, NULL, 0);
    check(p.number == 1 && p.which == BRB_FIRST && p.at == 3, "brb_compare: a first that is cut off, and no second");
}

int main(void) {
    steps();
    banks();
    sums();
    recordings();
    recorded();
    batches();
    comparisons();
    printf("nothing: %u checks passed, %u failed\n", passed, failed);
    return failed != 0;
}
