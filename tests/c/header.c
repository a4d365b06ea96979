/* include/brb.h by itself: its constants fit together. C89 and C++98 at once, so that every later standard takes it too. */
#include "brb.h"

/* The header's second inclusion is nothing. */
#include "brb.h"

#include <stdio.h>
#include <string.h>

#define TEST "header"
#include "check.h"

/* Constants that fit an int can be asked by the preprocessor. */
#if BRB_VERSION_MAJOR != 4 || BRB_STATE_NUMBERS != BRB_STATE_START + 1 || BRB_LARGEST_ROOM != 192
#error "brb.h: a constant is not what it was"
#endif
#if BRB_STATE_HALTED != BRB_STATE_UNKNOWN + 1 || BRB_CODE_HALT != BRB_CODE_IALL + 1 || BRB_CODE_RESUME != 9
#error "brb.h: a constant of halts is not what it was"
#endif
#if BRB_REFUSED_HALTED != 8 || BRB_TYPE_DEBUG_HALT != 0x21 || BRB_TYPE_DEBUG_EXIT != 0x39
#error "brb.h: a number of halts is not what it was"
#endif
#if BRB_STATE_BRBTS_EL1 != BRB_STATE_HALTED + 1 || BRB_CODE_FREEZE != BRB_CODE_RESUME + 1 || BRB_REGISTER_BRBTS_EL1 != 4
#error "brb.h: a constant of freezes is not what it was"
#endif
#if BRB_STATE_START != BRB_STATE_BRBTS_EL1 + 1 || BRB_STATE_START != 11 || BRB_ROOM_NUMBERS(8) != 24
#error "brb.h: a constant of the round buffer is not what it was"
#endif
#if BRB_TS_NONE != 0 || BRB_TS_VIRTUAL != 1 || BRB_TS_GUEST != 2 || BRB_TS_PHYSICAL != 3
#error "brb.h: a TS is not what it was"
#endif
#if BRB_ANSWER_NUMBERS != 2 || BRB_BATCH_NUMBERS(0) != 1 || BRB_BATCH_NUMBERS(59) != 60
#error "brb.h: a constant of batches is not what it was"
#endif
#if BRB_REFUSED_SUM != 9 || BRB_COUNT_EXCEEDED != BRB_COUNT_LARGEST + 1 || BRB_CC_EXCEEDED != 0x3FFF
#error "brb.h: a constant of counts is not what it was"
#endif
#if BRB_NEITHER != 0 || BRB_FIRST != 1 || BRB_SECOND != 2
#error "brb.h: a recording's number is not what it was"
#endif
#if BRB_DIFFERING_CODE != 1 || BRB_DIFFERING_CYCLES != 2 || BRB_DIFFERING_A != 4
#error "brb.h: a bit of what differs is not what it was"
#endif
#if BRB_DIFFERING_B != 8 || BRB_DIFFERING_C != 16 || BRB_DIFFERING_D != 32
#error "brb.h: a field's bit of what differs is not what it was"
#endif

static void masks(void) {
    uint64_t all = BRB_P_NS | BRB_P_EEL2 | BRB_P_TGE | BRB_P_E2H | BRB_P_SBRBE | BRB_P_EL3_RECORDING | BRB_P_FGTEN;
    all |= BRB_P_NBRBDATA_READ | BRB_P_NBRBCTL_READ | BRB_P_NBRBCTL_WRITE | BRB_P_NBRBIDR | BRB_P_NBRBIALL;
    check(all == BRB_P_MASK, "P's bits are its mask");
    all = BRB_CONTROL_E0BRE | BRB_CONTROL_E1BRE | BRB_CONTROL_CC | BRB_CONTROL_MPRED | BRB_CONTROL_TS | BRB_CONTROL_FZP;
    check((all | BRB_CONTROL_ERTN | BRB_CONTROL_EXCEPTION) == BRB_CONTROL_MASK, "BRBCR's bits are its mask");
    check(BRB_CONTROL_E0HBRE == BRB_CONTROL_E0BRE && BRB_CONTROL_E2BRE == BRB_CONTROL_E1BRE, "BRBCR_EL2's names");
    all = BRB_FILTER_PAUSED | BRB_FILTER_ENI | BRB_FILTER_DIRECT | BRB_FILTER_INDIRECT | BRB_FILTER_RTN;
    all |= BRB_FILTER_INDCALL | BRB_FILTER_DIRCALL | BRB_FILTER_CONDDIR | BRB_FILTER_BANK;
    check(all == BRB_FILTER_MASK, "BRBFCR_EL1's bits are its mask");
    check((BRB_P_NS | BRB_P_SBRBE_IS(3)) == 49, "S1's P");
    check(BRB_P_SBRBE_IS(3) == BRB_P_SBRBE && BRB_FILTER_BANK_IS(3) == BRB_FILTER_BANK, "fields of two bits");
    check(BRB_CONTROL_TS_IS(BRB_TS_PHYSICAL) == BRB_CONTROL_TS, "TS, a field of two bits");
    check(~BRB_P_MASK >> 32 == 0xFFFFFFFF, "a mask has 64 bits");
}

static void fields(void) {
    uint64_t inf = (BRB_NUMBER(0x12C) << 32) | 0x843; /* of session S1 */
    check(BRB_INF_CCU_OF(inf) == 0 && BRB_INF_CC_OF(inf) == 300, "the count's fields");
    check(BRB_INF_TYPE_OF(inf) == BRB_TYPE_CONDDIR && BRB_INF_LEVEL_OF(inf) == BRB_LEVEL_EL1, "type and level");
    check(BRB_INF_MPRED_OF(inf) == 0 && BRB_INF_VALID_OF(inf) == BRB_VALID_FULL, "MPRED and VALID");
    check(BRB_INF_CCU_OF(BRB_INF_CCU) == 1 && BRB_INF_MPRED_OF(BRB_INF_MPRED) == 1, "fields of one bit");
    check(BRB_INF_CC_OF(BRB_INF_CC) == BRB_CC_EXCEEDED, "CC's width");
    inf = (BRB_NUMBER(BRB_TYPE_DEBUG_EXIT) << 8) | BRB_INF_CCU | BRB_VALID_HALF_TARGET;
    check(BRB_INF_TYPE_OF(inf) == BRB_TYPE_DEBUG_EXIT && BRB_INF_CCU_OF(inf) == 1, "a type of six bits");
}

static void answers(void) {
    uint64_t number;
    for (number = 1; number <= 8; number++) check(BRB_IS_REFUSED(number), "1 to 8 are refusals");
    check(BRB_IS_REFUSED(BRB_REFUSED_SUM), "9 is a refusal");
    check(!BRB_IS_REFUSED(BRB_DONE) && !BRB_IS_REFUSED(BRB_UNDEFINED), "0 and 100 are none");
    check(!BRB_IS_REFUSED(BRB_TRAP2) && !BRB_IS_REFUSED(BRB_TRAP3), "102 and 103 are none");
    check(strlen(BRB_VERSION) >= 5, "the version as text");
}

/* An operation has two bytes at least, but for a last one that is cut off. */
static void batches(void) {
    size_t length;
    for (length = 0; length < 100; length++) {
        size_t most = (length + 1) / 2;
        check(BRB_BATCH_NUMBERS(length) >= BRB_ANSWER_NUMBERS * most, "numbers for the answers of any run");
    }
    check(BRB_BATCH_NUMBERS(BRB_OPERATION_BYTES) > BRB_ANSWER_NUMBERS, "numbers for the longest operation's answer");
}

/* A room whose numbers are all different, and the start of each of its eight places. */
static void banks(void) {
    uint64_t room[BRB_ROOM_NUMBERS(8)], start;
    size_t i;
    for (i = 0; i < BRB_ROOM_NUMBERS(8); i++) room[i] = 100 + i;
    for (start = 0; start < 8; start++) {
        struct brb_answer inf = brb_bank_inf(room, BRB_ROOM_NUMBERS(8), 8, start, 0, 0);
        struct brb_answer source = brb_bank_source(room, BRB_ROOM_NUMBERS(8), 8, start, 0, 0);
        struct brb_answer target = brb_bank_target(room, BRB_ROOM_NUMBERS(8), 8, start, 0, 7);
        check(inf.number == BRB_DONE && inf.value == 100 + 3 * start, "BRBINF of record 0 stands at the start");
        check(source.number == BRB_DONE && source.value == 101 + 3 * start, "and BRBSRC behind it");
        check(target.number == BRB_DONE && target.value == 102 + 3 * ((start + 7) % 8), "record 7 stands below it");
    }
    check(brb_bank_inf(room, BRB_ROOM_NUMBERS(8), 8, 8, 0, 0).number == BRB_REFUSED_STATE, "8 is no start of eight places");
}

static void counts(void) {
    struct brb_spread spread;
    uint64_t cc[3];
    cc[0] = brb_count_encode(BRB_COUNT_LARGEST);
    cc[1] = brb_count_encode(BRB_COUNT_EXCEEDED);
    cc[2] = BRB_CC_EXCEEDED - 1;
    check(cc[0] == 0xCFF && cc[1] == BRB_CC_EXCEEDED, "the largest count, and one that exceeded");
    spread = brb_count_decode(cc[0]);
    check(spread.number == BRB_DONE && spread.bounded == 1, "the largest count has an upper end");
    check(spread.low < spread.high && spread.high == BRB_COUNT_LARGEST, "which it is itself");
    spread = brb_count_decode(cc[1]);
    check(spread.number == BRB_DONE && spread.low == BRB_COUNT_EXCEEDED, "the smallest count that exceeded");
    check(spread.high == 0 && spread.bounded == 0, "which has no upper end");
    spread = brb_count_sum(cc, 1);
    check(spread.number == BRB_DONE && spread.high == BRB_COUNT_LARGEST && spread.bounded == 1, "the sum of one");
    spread = brb_count_sum(cc, 2);
    check(spread.number == BRB_DONE && spread.high == 0 && spread.bounded == 0, "a sum without an upper end");
    spread = brb_count_sum(cc, 3);
    check(BRB_IS_REFUSED(spread.number) && spread.low == 0, "a sum that is refused");
}

/* A freeze beside one with all its numbers other, and with another code. */
static void partings(void) {
    static const uint8_t freeze[12] = {10, 1, 0, 2, 3, 4, 10, 2, 1, 3, 4, 5};
    struct brb_parting parting = brb_compare(freeze, 6, freeze + 6, 6);
    uint64_t all = BRB_DIFFERING_CYCLES | BRB_DIFFERING_A | BRB_DIFFERING_B | BRB_DIFFERING_C | BRB_DIFFERING_D;
    check(sizeof parting == 9 * sizeof(uint64_t), "a parting has nine numbers");
    check(parting.number == BRB_DONE && parting.which == BRB_NEITHER && parting.at == 0, "two that can be read");
    check(parting.equal == 0 && parting.ends_first == BRB_NEITHER && parting.differing == all, "all numbers differ");
    check(parting.rest_of == BRB_FIRST && parting.rest_at == 6 && parting.rest_length == 0, "an empty rest of the first");
    parting = brb_compare(freeze, 6, freeze, 12);
    check(parting.equal == 1 && parting.ends_first == BRB_FIRST && parting.differing == 0, "a front");
    check(parting.rest_of == BRB_SECOND && parting.rest_at == 6 && parting.rest_length == 6, "and the rest of the second");
    parting = brb_compare(freeze + 3, 2, freeze + 1, 5);
    check(parting.number == BRB_REFUSED_MALFORMED && parting.which == BRB_FIRST && parting.at == 2, "a missing number");
    check((all | BRB_DIFFERING_CODE) == (BRB_BIT(BRB_OPERATION_NUMBERS) - 1), "a bit for each number of an operation");
}

int main(void) {
    masks();
    fields();
    answers();
    batches();
    banks();
    counts();
    partings();
    printf("header: %u checks passed, %u failed\n", passed, failed);
    return failed != 0;
}
