/* A proved model of one processor's Arm branch record buffer (BRBE), version 4.0.0. docs/MANUAL.md says all of it: what
 * each operation does, each register, each refusal.
 *
 * Added since 4.0.0: brb_compare tells where two recordings part. What changed for a host in 4.0.0: records no longer move in the
 * room. A state has twelve numbers, the last of which says at which place record 0 stands, so that a host that lends eleven
 * of its own is answered 7; one that goes by BRB_STATE_NUMBERS and begins with zeros needs to be compiled again.
 * brb_bank_inf, brb_bank_source and brb_bank_target take that number after the size. A host that looked into the room itself,
 * for record r at 3r, has to go by it too. What reads and the bank view answer is what it was. In 3.0.0: a state has eleven
 * numbers, the last of which is BRBTS_EL1, so that a host that lends ten of its own is answered 7; one that goes by
 * BRB_STATE_NUMBERS and begins with zeros needs to be compiled again and no more. Code 10, which was refused with 2, is a
 * freeze; register 4, which was refused with 4, is BRBTS_EL1; bits 8 and 6:5 of BRBCR_EL1 and BRBCR_EL2 have their effect. In
 * 2.0.0: a state has ten numbers, the last of which says whether the processor is halted, so that a host that lends nine of
 * its own is answered 7; one that goes by BRB_STATE_NUMBERS and begins with zeros needs to be compiled again and no more.
 * Codes 8 and 9 are halts and resumes, which were refused with 2, and have a refusal of their own, BRB_REFUSED_HALTED. In
 * 1.0.0: brb_count_decode answers the smallest and the largest count that share an encoding, as a struct brb_spread, where it
 * answered the smallest alone as a struct brb_answer: what was `value` is `low`. brb_count_sum adds up a run of encodings,
 * both ends, and has a refusal of its own, BRB_REFUSED_SUM. In 0.3.0: brb_batch takes a whole run of recorded operations in
 * one call, and BRB_ANSWER_NUMBERS and BRB_BATCH_NUMBERS say how much to lend for its answers. In 0.2.0: a BRB IALL that is
 * performed makes the next count unknown, as on the chip; one that is undefined or traps does not. Nothing else changed but
 * the version's numbers.
 *
 * The model keeps nothing between calls: the host lends it the state and the records, and each call changes them in
 * place or, where it refuses, leaves every lent number as it was. No call allocates, blocks or fails otherwise.
 *
 * Lent memory is a pointer and a length in numbers (or bytes). A length of 0 may come with any pointer, NULL too, at
 * every function: the area is then never touched. Two lent areas of one call must not overlap, unless neither is written.
 *
 * The state is BRB_STATE_NUMBERS numbers, in this order: level, size, v1p1, P, BRBCR_EL1, BRBCR_EL2, BRBFCR_EL1, the
 * running count, whether the next count is unknown, whether the processor is halted, BRBTS_EL1, and the starting number. All
 * zeros is a fresh state, in which only a reset is accepted. More numbers may be lent; those past the needed ones are never written.
 *
 * The room holds the records, each at its place: place p is BRBINF, BRBSRC, BRBTGT at 3p, 3p+1, 3p+2. Record 0, the newest,
 * stands at the place that the state's starting number says, and record r at start + r, or at start + r - size where that is not
 * below the size. A new record is written at the place below the start, going round, which becomes the start; no other number of
 * the room is written then. A reset and a performed BRB IALL make the records zero and the start 0. The room must hold
 * BRB_ROOM_NUMBERS(size) numbers, for the size after the operation; those past them are never written.
 *
 * Answers. `number` is
 *     0    done; `value` is what a read read, and 0 for every other operation
 *   100    accepted, the access is undefined       (value 0)
 *   102    accepted, the access traps to EL2       (value 0)
 *   103    accepted, the access traps to EL3       (value 0)
 *     1    refused: a malformed number, in a recording
 *     2    refused: a code above 10
 *     3    refused: no reset yet (size 0), and the code is not 0
 *     4    refused: size, flag, type, level, register, P, group or count encoding outside its list
 *     8    refused: the processor is halted, and the operation is a branch, an exception, a return or a halt; or it is not
 *          halted, and the operation is a resume
 *     5    refused: the level does not permit the operation
 *     6    refused: the room is too short (or what else a function writes to, as it says)
 *     7    refused: the state is not sound, or its memory is too short to hold it (in the bank view: the start alone)
 *     9    refused: a sum passes 2^64 - 1 (brb_count_sum alone)
 * Refusals are checked in the order 7, 2, 3, 4, 8, 5, 6, 9 (in the bank view 4, 7, 6), and have the value 0. A refused operation's
 * cycles do not count.
 *
 * The archive, libbrb.a, is for Linux on x86-64 (x86_64-unknown-linux-gnu: ELF, the System V calling convention; processors of
 * level x86-64-v2), and calls memset of the C library and nothing else. Its code is position independent; it becomes a shared library by
 *     gcc -shared -o libbrb.so -Wl,--whole-archive libbrb.a -Wl,--no-whole-archive
 *
 * This file stands alone, from C89 to C23 and from C++98 to C++23. It takes uint64_t from <stdint.h>, which C89 and C++98
 * do not promise and which gcc and clang have in every mode. */
#ifndef BRB_H
#define BRB_H

#include <stddef.h>
#include <stdint.h>

#ifdef __cplusplus
extern "C" {
#endif

/* This header's version. It grows in MAJOR where a host has to change, in MINOR where something is added or an answer becomes
 * another. */
#define BRB_VERSION_MAJOR 4
#define BRB_VERSION_MINOR 0
#define BRB_VERSION_PATCH 0
#define BRB_VERSION "4.0.0"

/* A constant of 64 bits. C89 has no literal for it, and C++ warns of C's casts. */
#ifdef __cplusplus
#define BRB_NUMBER(n) (static_cast<uint64_t>(n))
#else
#define BRB_NUMBER(n) ((uint64_t)(n))
#endif

/* Bit n, and the field of bits `high` to `low`, as masks. */
#define BRB_BIT(n) (BRB_NUMBER(1) << (n))
#define BRB_FIELD(high, low) ((BRB_BIT((high) - (low) + 1) - 1) << (low))

/* Codes of operations. */
#define BRB_CODE_RESET 0
#define BRB_CODE_BRANCH 1
#define BRB_CODE_EXCEPTION 2
#define BRB_CODE_RETURN 3
#define BRB_CODE_PLATFORM 4
#define BRB_CODE_READ 5
#define BRB_CODE_WRITE 6
#define BRB_CODE_IALL 7
#define BRB_CODE_HALT 8
#define BRB_CODE_RESUME 9
#define BRB_CODE_FREEZE 10

/* Answers of accepted operations. */
#define BRB_DONE 0
#define BRB_UNDEFINED 100
#define BRB_TRAP2 102
#define BRB_TRAP3 103

/* Refusals. */
#define BRB_REFUSED_MALFORMED 1
#define BRB_REFUSED_CODE 2
#define BRB_REFUSED_NOT_RESET 3
#define BRB_REFUSED_OUTSIDE_LIST 4
#define BRB_REFUSED_LEVEL 5
#define BRB_REFUSED_ROOM 6
#define BRB_REFUSED_STATE 7
#define BRB_REFUSED_HALTED 8
#define BRB_REFUSED_SUM 9

/* Whether an answer's number is a refusal. */
#define BRB_IS_REFUSED(number) ((number) != BRB_DONE && (number) < BRB_UNDEFINED)

/* Registers, as reads and writes name them; m is from 0 to 31. */
#define BRB_REGISTER_BRBIDR0_EL1 0
#define BRB_REGISTER_BRBCR_EL1 1
#define BRB_REGISTER_BRBCR_EL2 2
#define BRB_REGISTER_BRBFCR_EL1 3
#define BRB_REGISTER_BRBTS_EL1 4
#define BRB_REGISTER_BRBINF(m) (32 + (m))
#define BRB_REGISTER_BRBSRC(m) (64 + (m))
#define BRB_REGISTER_BRBTGT(m) (96 + (m))

/* What BRBIDR0_EL1 reads for a buffer of this size. */
#define BRB_BRBIDR0_EL1(size) (0x5000 + (size))

/* How many numbers a state has. */
#define BRB_STATE_NUMBERS 12

/* Where each number of a state stands. */
#define BRB_STATE_LEVEL 0
#define BRB_STATE_SIZE 1
#define BRB_STATE_V1P1 2
#define BRB_STATE_P 3
#define BRB_STATE_BRBCR_EL1 4
#define BRB_STATE_BRBCR_EL2 5
#define BRB_STATE_BRBFCR_EL1 6
#define BRB_STATE_COUNT 7
#define BRB_STATE_UNKNOWN 8
#define BRB_STATE_HALTED 9
#define BRB_STATE_BRBTS_EL1 10
#define BRB_STATE_START 11

/* How many numbers the records of a buffer of this size take; the largest size, and the room for it. */
#define BRB_ROOM_NUMBERS(size) (3 * (size))
#define BRB_LARGEST_SIZE 64
#define BRB_LARGEST_ROOM BRB_ROOM_NUMBERS(BRB_LARGEST_SIZE)

/* Levels. */
#define BRB_LEVEL_EL0 0
#define BRB_LEVEL_EL1 1
#define BRB_LEVEL_EL2 2
#define BRB_LEVEL_EL3 3

/* Types of branches, as an operation names them and a record shows them. */
#define BRB_TYPE_DIRECT 0
#define BRB_TYPE_INDIRECT 1
#define BRB_TYPE_DIRCALL 2
#define BRB_TYPE_INDCALL 3
#define BRB_TYPE_RTN 5
#define BRB_TYPE_CONDDIR 8

/* The type that the record of an exception return shows. No operation names it. */
#define BRB_TYPE_EXCEPTION_RETURN 7

/* The types that the records of a halt and of a resume show: Debug halt and Debug state exit. No operation names them. */
#define BRB_TYPE_DEBUG_HALT 0x21
#define BRB_TYPE_DEBUG_EXIT 0x39

/* Types of exceptions. */
#define BRB_TYPE_CALL 0x22
#define BRB_TYPE_TRAP 0x23
#define BRB_TYPE_SERROR 0x24
#define BRB_TYPE_INSTRUCTION_DEBUG 0x26
#define BRB_TYPE_DATA_DEBUG 0x27
#define BRB_TYPE_ALIGNMENT 0x2A
#define BRB_TYPE_INSTRUCTION_FAULT 0x2B
#define BRB_TYPE_DATA_FAULT 0x2C
#define BRB_TYPE_IRQ 0x2E
#define BRB_TYPE_FIQ 0x2F

/* The platform word P: its bits, and all that it may have. SBRBE is a field of two bits: BRB_P_SBRBE_IS(n) has n in it. */
#define BRB_P_NS BRB_BIT(0)
#define BRB_P_EEL2 BRB_BIT(1)
#define BRB_P_TGE BRB_BIT(2)
#define BRB_P_E2H BRB_BIT(3)
#define BRB_P_SBRBE BRB_FIELD(5, 4)
#define BRB_P_SBRBE_IS(n) (BRB_NUMBER(n) << 4)
#define BRB_P_EL3_RECORDING BRB_BIT(6)
#define BRB_P_FGTEN BRB_BIT(8)
#define BRB_P_NBRBDATA_READ BRB_BIT(9)
#define BRB_P_NBRBCTL_READ BRB_BIT(10)
#define BRB_P_NBRBCTL_WRITE BRB_BIT(11)
#define BRB_P_NBRBIDR BRB_BIT(12)
#define BRB_P_NBRBIALL BRB_BIT(13)
#define BRB_P_MASK BRB_NUMBER(0x3F7F)

/* BRBCR_EL1 and BRBCR_EL2: their bits, and all that a write keeps. TS is a field of two bits: BRB_CONTROL_TS_IS(n) has n in it. */
#define BRB_CONTROL_E0BRE BRB_BIT(0)
#define BRB_CONTROL_E0HBRE BRB_BIT(0)
#define BRB_CONTROL_E1BRE BRB_BIT(1)
#define BRB_CONTROL_E2BRE BRB_BIT(1)
#define BRB_CONTROL_CC BRB_BIT(3)
#define BRB_CONTROL_MPRED BRB_BIT(4)
#define BRB_CONTROL_TS BRB_FIELD(6, 5)
#define BRB_CONTROL_TS_IS(n) (BRB_NUMBER(n) << 5)
#define BRB_CONTROL_FZP BRB_BIT(8)
#define BRB_CONTROL_ERTN BRB_BIT(22)
#define BRB_CONTROL_EXCEPTION BRB_BIT(23)
#define BRB_CONTROL_MASK BRB_NUMBER(0xC0017B)

/* What TS chooses as the time of a freeze: the physical count less the virtual offset, less the guest offset, or as it is.
 * BRBCR_EL2's TS decides, or BRBCR_EL1's where it is 0; where both are 0 the time is 0. */
#define BRB_TS_NONE 0
#define BRB_TS_VIRTUAL 1
#define BRB_TS_GUEST 2
#define BRB_TS_PHYSICAL 3

/* BRBFCR_EL1: its bits, and all that a write keeps. BANK is a field of two bits: BRB_FILTER_BANK_IS(n) has n in it. */
#define BRB_FILTER_PAUSED BRB_BIT(7)
#define BRB_FILTER_ENI BRB_BIT(16)
#define BRB_FILTER_DIRECT BRB_BIT(17)
#define BRB_FILTER_INDIRECT BRB_BIT(18)
#define BRB_FILTER_RTN BRB_BIT(19)
#define BRB_FILTER_INDCALL BRB_BIT(20)
#define BRB_FILTER_DIRCALL BRB_BIT(21)
#define BRB_FILTER_CONDDIR BRB_BIT(22)
#define BRB_FILTER_BANK BRB_FIELD(29, 28)
#define BRB_FILTER_BANK_IS(n) (BRB_NUMBER(n) << 28)
#define BRB_FILTER_MASK BRB_NUMBER(0x307F0080)

/* BRBINF: its fields, and each taken out of a value. */
#define BRB_INF_VALID BRB_FIELD(1, 0)
#define BRB_INF_MPRED BRB_BIT(5)
#define BRB_INF_LEVEL BRB_FIELD(7, 6)
#define BRB_INF_TYPE BRB_FIELD(13, 8)
#define BRB_INF_CC BRB_FIELD(45, 32)
#define BRB_INF_CCU BRB_BIT(46)
#define BRB_INF_VALID_OF(inf) ((inf) & BRB_INF_VALID)
#define BRB_INF_MPRED_OF(inf) (((inf) & BRB_INF_MPRED) >> 5)
#define BRB_INF_LEVEL_OF(inf) (((inf) & BRB_INF_LEVEL) >> 6)
#define BRB_INF_TYPE_OF(inf) (((inf) & BRB_INF_TYPE) >> 8)
#define BRB_INF_CC_OF(inf) (((inf) & BRB_INF_CC) >> 32)
#define BRB_INF_CCU_OF(inf) (((inf) & BRB_INF_CCU) >> 46)

/* What VALID says of a record. */
#define BRB_VALID_NONE 0
#define BRB_VALID_HALF_TARGET 1
#define BRB_VALID_HALF_SOURCE 2
#define BRB_VALID_FULL 3

/* The largest known count; what the running count stops at, which is the smallest count that exceeded the counter; and the
 * CC that says so. */
#define BRB_COUNT_LARGEST 1048575
#define BRB_COUNT_EXCEEDED 1048576
#define BRB_CC_EXCEEDED 0x3FFF

/* How many numbers an operation of a recording is read into: code, cycles, a, b, c, d. */
#define BRB_OPERATION_NUMBERS 6

/* How many bytes a number of a recording has at most, and an operation. */
#define BRB_NUMBER_BYTES 10
#define BRB_OPERATION_BYTES 60

/* How many numbers an answer of a batch has: its number and its value. And how many are enough for the answers of any run of
 * so many bytes. */
#define BRB_ANSWER_NUMBERS 2
#define BRB_BATCH_NUMBERS(length) ((length) + 1)

/* Which of two recordings that are compared; and the bits of what differs in their first unequal pair of operations. */
#define BRB_NEITHER 0
#define BRB_FIRST 1
#define BRB_SECOND 2
#define BRB_DIFFERING_CODE 0x1
#define BRB_DIFFERING_CYCLES 0x2
#define BRB_DIFFERING_A 0x4
#define BRB_DIFFERING_B 0x8
#define BRB_DIFFERING_C 0x10
#define BRB_DIFFERING_D 0x20

struct brb_answer {
    uint64_t number;
    uint64_t value;
};

/* One operation. `code`, the cycles passed since the previous operation (any number), and the fields in order:
 *     0  reset              a size (8, 16, 32, 64), b v1p1
 *     1  taken branch       a type, b mispredicted, c source, d target
 *     2  exception          a type, b target level, c source, d target
 *     3  exception return   a target level, b mispredicted, c source, d target
 *     4  platform word      a P
 *     5  read               a register
 *     6  write              a register, b value
 *     7  BRB IALL
 *     8  halt               a source
 *     9  resume             a target, b target level
 *    10  freeze             a group (0, 1), b physical count, c virtual offset, d guest offset
 * Numbers beyond an operation's own fields are not looked at.
 * Registers: 0 BRBIDR0_EL1, 1 BRBCR_EL1, 2 BRBCR_EL2, 3 BRBFCR_EL1, 4 BRBTS_EL1, and with m from 0 to 31, 32+m BRBINF,
 * 64+m BRBSRC, 96+m BRBTGT.
 * No state at all (a length of 0, NULL too) is 7; no room at all is 6, where nothing else is refused. */
struct brb_answer brb_step(uint64_t *state, size_t state_numbers, uint64_t *room, size_t room_numbers, uint64_t code,
                           uint64_t cycles, uint64_t a, uint64_t b, uint64_t c, uint64_t d);

/* A read of a register: the same as brb_step with code 5, no state and no room too. It changes the state, since its cycles
 * count. */
struct brb_answer brb_read(uint64_t *state, size_t state_numbers, uint64_t *room, size_t room_numbers, uint64_t cycles,
                           uint64_t reg);

/* A cycle count as BRBINF's 14-bit field CC: rounded down, and 0x3FFF above 1,048,575. Any number has an answer. */
uint64_t brb_count_encode(uint64_t count);

/* The counts that an encoding may stand for: the smallest, `low`, and the largest, `high`. Where `bounded` is 0 there is no
 * largest, and `high` is 0. `number` is 0, or a refusal with 0 in all else. */
struct brb_spread {
    uint64_t number;
    uint64_t low;
    uint64_t high;
    uint64_t bounded;
};

/* What a CC field says: the smallest and the largest count that have this encoding. Number 0 and bounded 1 where there is such
 * a count; number 0, low 1,048,576, high 0 and bounded 0 where the count exceeded the counter (0x3FFF); number 4 and all else 0
 * where no count has this encoding. A record with CCU 1 has no count, although its CC is 0. */
struct brb_spread brb_count_decode(uint64_t cc);

/* The sum of a run of counts by their encodings: `low` is the sum of the smallest counts and `high` that of the largest, so that
 * the sum of the counts themselves lies between them. Where one of them exceeded the counter there is no largest (high 0,
 * bounded 0). Number 4 where one of them is no encoding; else number 9 where `low`, or `high` if there is one, would pass
 * 2^64 - 1; all else is then 0. No encodings at all (a count of 0, NULL too) are 0, 0, 0 and bounded 1. */
struct brb_spread brb_count_sum(const uint64_t *cc, size_t count);

/* One register of the records, as a bank of a buffer of this size shows it: BRBINF<m>, BRBSRC<m> or BRBTGT<m> with BANK in
 * BRBFCR_EL1. `start` is the place of record 0, the state's number BRB_STATE_START. Number 0 with the register of record
 * m + 32 * bank, or with 0 where that is not below the size; number 4 with 0 where the size is none of 8, 16, 32 and 64, `bank`
 * is above 3 or `m` above 31; else number 7 with 0 where `start` is not below the size; else number 6 with 0 where the room is
 * too short for the size. Nothing is written, no state is needed and no cycles pass: a host looks at records without an
 * operation. For a state's own size, start and BANK the value is what a performed read of the register reads. No room at all (a
 * length of 0, NULL too) is 6, after 4 and 7. */
struct brb_answer brb_bank_inf(const uint64_t *room, size_t room_numbers, uint64_t size, uint64_t start,
                               uint64_t bank, uint64_t m);
struct brb_answer brb_bank_source(const uint64_t *room, size_t room_numbers, uint64_t size, uint64_t start,
                                  uint64_t bank, uint64_t m);
struct brb_answer brb_bank_target(const uint64_t *room, size_t room_numbers, uint64_t size, uint64_t start,
                                  uint64_t bank, uint64_t m);

/* Recordings: operations one after another, each a code, its cycles and its fields. A number is in groups of seven bits,
 * low group first, top bit set when more follow, at most ten bytes, in its shortest form. */

/* The operation at position `at` of a recording, into `place`: code, cycles, then its fields, and 0 for those that it has
 * not. Answers 0 and the position after it; or 6 where `place` has fewer than BRB_OPERATION_NUMBERS (checked first), 1
 * where a number is malformed or the input ends inside the operation, 2 where the code is above 10, each with the value 0
 * and `place` as it was. Numbers of `place` past the six are never written. No place at all (a length of 0, NULL too) is 6,
 * no bytes at all are 1. */
struct brb_answer brb_recording_read(const uint8_t *bytes, size_t length, size_t at, uint64_t *place,
                                     size_t place_numbers);

/* An operation at position `at` of lent bytes. Answers 0 and the number of bytes written; or 2 where the code is above 10,
 * then 6 where the operation has no room there, each with the value 0 and no byte written. Nothing else is checked: any
 * numbers are written. Bytes before and past the operation are never written. No bytes at all (a length of 0, NULL too) are
 * 6, after 2. */
struct brb_answer brb_recording_write(uint8_t *bytes, size_t length, size_t at, uint64_t code, uint64_t cycles,
                                      uint64_t a, uint64_t b, uint64_t c, uint64_t d);

struct brb_recorded {
    uint64_t number;
    uint64_t value;
    uint64_t next;
};

/* One operation of a recording: 7 first, with nothing read (`next` is `at`); then the operation is read, 1 or 2 (`next` is
 * where the bad number starts); then it is stepped as brb_step does (`next` is the position after it). After 7, 1 or 2
 * reading stops, after another refusal it goes on. At the end of the input the answer is 1: a host that replays a
 * recording stops before it. No state at all (a length of 0, NULL too) is 7, no bytes at all are 1, no room at all is 6,
 * where nothing else is refused. */
struct brb_recorded brb_step_recorded(uint64_t *state, size_t state_numbers, uint64_t *room, size_t room_numbers,
                                      const uint8_t *bytes, size_t length, size_t at);

/* A run of recorded operations in one call: what calls of brb_step_recorded do, one after another, from the first byte on. It
 * ends with the bytes, or with the first operation that is answered 1 (a number is malformed, or the bytes end inside the
 * operation) or 2 (a code above 10), which is the last one answered. Into `answers` goes what each call would answer:
 * answers[2 * i] is the number and answers[2 * i + 1] the value of operation i, counted from 0. Any other refusal of an
 * operation, its own 6 for the room too, stands in its two numbers, changes nothing, and the batch goes on.
 * Answers 0 and how many operations were answered; or 7 where the state is not sound or its memory too short; else 6 where
 * `answers` has fewer than BRB_ANSWER_NUMBERS numbers for each operation that is to be answered, the last one included. Both
 * come before anything is done, with the value 0 and every lent number as it was. Numbers of `answers` past the answers are
 * never written. BRB_BATCH_NUMBERS(length) numbers are always enough; with fewer the run may have to be read twice, first to
 * count its operations. No bytes at all (a length of 0, NULL too) are 0 with 0, whatever `answers` is; no state at all is 7,
 * no room at all is a matter of each operation. */
struct brb_answer brb_batch(uint64_t *state, size_t state_numbers, uint64_t *room, size_t room_numbers,
                            const uint8_t *bytes, size_t length, uint64_t *answers, size_t answer_numbers);

/* Where two recordings part. `which`, `ends_first` and `rest_of` are BRB_NEITHER, BRB_FIRST or BRB_SECOND.
 *     number       0; or 1 or 2 where a recording cannot be read, with 0 in all but `which` and `at`
 *     which        whose bad number it is
 *     at           the byte where it starts; that recording's length where a number is missing
 *     equal        how many operations are equal at the front
 *     ends_first   which has fewer operations, also behind an unequal pair; neither where both have as many
 *     differing    what differs in the first unequal pair, by BRB_DIFFERING_CODE and the other bits; the code alone where the
 *                  codes differ; 0 where no pair is unequal
 *     rest_of      which has more operations, and the first where both have as many
 *     rest_at      the byte of it where its rest starts, after as many operations as the other has
 *     rest_length  how many bytes that rest has */
struct brb_parting {
    uint64_t number;
    uint64_t which;
    uint64_t at;
    uint64_t equal;
    uint64_t ends_first;
    uint64_t differing;
    uint64_t rest_of;
    uint64_t rest_at;
    uint64_t rest_length;
};

/* Compares two recordings, operation by operation: code, cycles and the fields that the operation has. Both are read to their
 * ends, and nothing is stepped. They are equal where `number`, `ends_first` and `differing` are 0. A number that is malformed or
 * missing is 1, a code above 10 is 2, wherever it stands: the first such number of the first recording, or else of the second.
 * The rest is the part of `first` or `second` from `rest_at` on, `rest_length` bytes. Nothing is written, so that the two may
 * overlap, or be one. No bytes at all (a length of 0, NULL too) are a recording without operations. */
struct brb_parting brb_compare(const uint8_t *first, size_t first_length, const uint8_t *second, size_t second_length);

#ifdef __cplusplus
}
#endif

#endif
