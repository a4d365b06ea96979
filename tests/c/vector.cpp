// Empty vectors, whose data() may be a null pointer, at every function; and a read, a sum and a parting on vectors that
// are not empty.
#include "brb.h"
#include <iostream>
#include <vector>

static unsigned passed, failed;

static void check(bool holds, const char *what) {
    (holds ? passed : failed)++;
    if (!holds) std::cerr << "vector: failed: " << what << "\n";
}

static void empty() {
    std::vector<uint64_t> none;
    std::vector<uint8_t> no_bytes;
    check(none.data() == NULL && no_bytes.data() == NULL, "these empty vectors have null pointers");
    uint64_t *n = none.data();
    uint8_t *b = no_bytes.data();
    check(brb_step(n, none.size(), n, none.size(), BRB_CODE_RESET, 0, 8, 0, 0, 0).number == 7, "brb_step");
    check(brb_read(n, none.size(), n, none.size(), 0, 0).number == 7, "brb_read");
    const brb_spread sum = brb_count_sum(n, none.size());
    check(sum.number == BRB_DONE && sum.low == 0 && sum.high == 0 && sum.bounded == 1, "brb_count_sum");
    check(brb_bank_inf(n, none.size(), 8, 7, 0, 0).number == 6, "brb_bank_inf");
    check(brb_bank_source(n, none.size(), 8, 7, 0, 0).number == 6, "brb_bank_source");
    check(brb_bank_target(n, none.size(), 8, 7, 0, 0).number == 6, "brb_bank_target");
    check(brb_bank_inf(n, none.size(), 8, 8, 0, 0).number == BRB_REFUSED_STATE, "brb_bank_inf: 7 before 6");
    check(brb_recording_read(b, no_bytes.size(), 0, n, none.size()).number == 6, "brb_recording_read");
    check(brb_recording_write(b, no_bytes.size(), 0, 7, 0, 0, 0, 0, 0).number == 6, "brb_recording_write");
    check(brb_step_recorded(n, none.size(), n, none.size(), b, no_bytes.size(), 0).number == 7, "brb_step_recorded");
    check(brb_batch(n, none.size(), n, none.size(), b, no_bytes.size(), n, none.size()).number == 7, "brb_batch");
    const brb_parting parting = brb_compare(b, no_bytes.size(), b, no_bytes.size());
    check(parting.number == BRB_DONE && parting.equal == 0 && parting.rest_of == BRB_FIRST, "brb_compare");
    check(parting.rest_at == 0 && parting.rest_length == 0, "brb_compare: an empty rest");
}

static void empty_run() {
    std::vector<uint64_t> state(BRB_STATE_NUMBERS), none;
    std::vector<uint8_t> no_bytes, reset(4);
    reset[2] = 8;
    uint64_t *s = state.data(), *n = none.data();
    brb_answer answer = brb_batch(s, state.size(), n, none.size(), no_bytes.data(), no_bytes.size(), n, none.size());
    check(answer.number == BRB_DONE && answer.value == 0, "brb_batch: no bytes, no room and no answers");
    answer = brb_batch(s, state.size(), n, none.size(), reset.data(), reset.size(), n, none.size());
    check(answer.number == BRB_REFUSED_ROOM && answer.value == 0, "brb_batch: no room and no answers");
    std::vector<uint64_t> answers(BRB_BATCH_NUMBERS(reset.size()));
    answer = brb_batch(s, state.size(), n, none.size(), reset.data(), reset.size(), answers.data(), answers.size());
    check(answer.number == BRB_DONE && answer.value == 1 && answers[0] == BRB_REFUSED_ROOM, "brb_batch: no room");
}

static void in_use() {
    std::vector<uint64_t> state(BRB_STATE_NUMBERS), room(BRB_ROOM_NUMBERS(16));
    brb_answer answer = brb_step(state.data(), state.size(), room.data(), room.size(), BRB_CODE_RESET, 0, 16, 0, 0, 0);
    check(answer.number == BRB_DONE && state[BRB_STATE_LEVEL] == BRB_LEVEL_EL3, "a reset");
    answer = brb_read(state.data(), state.size(), room.data(), room.size(), 0, BRB_REGISTER_BRBIDR0_EL1);
    check(answer.number == BRB_DONE && answer.value == BRB_BRBIDR0_EL1(16), "BRBIDR0_EL1");
    room[3 * 15 + 1] = 77;
    const brb_answer shown = brb_bank_source(room.data(), room.size(), 16, 12, 0, 3);
    check(shown.number == BRB_DONE && shown.value == 77, "brb_bank_source: record 3 stands three places above the start");
    const std::vector<uint64_t> cc(3, 0x7C4);
    const brb_spread sum = brb_count_sum(cc.data(), cc.size());
    check(sum.number == BRB_DONE && sum.low == 3 * 28928 && sum.high == 3 * 28991 && sum.bounded == 1, "a sum");
    const std::vector<uint8_t> iall(2, 7), no_bytes;
    const brb_parting parting = brb_compare(iall.data(), iall.size(), no_bytes.data(), no_bytes.size());
    check(parting.number == BRB_DONE && parting.ends_first == BRB_SECOND && parting.rest_length == 2, "a parting");
}

int main() {
    empty();
    empty_run();
    in_use();
    std::cout << "vector: " << passed << " checks passed, " << failed << " failed\n";
    return failed != 0;
}
