/* The drift checker for C callers: the functions of the static library
 * drift_c, and what takes their answers apart.
 *
 * Words are those of document 01, plans, regions and evidence of the drift
 * checker. Each slice is a pointer and a length in elements. Any bytes and
 * any lengths may be lent. A pointer is never null, not even with length 0,
 * and memory that is written to overlaps no other that is lent to the call.
 *
 * A plan begins with its mark. It says what a stay field of 0 means: with 1
 * the ceiling, with 2 the greatest high end for that clock among the edges
 * that leave the location, or the ceiling where none leaves. The answers are
 * those of the limits so read; other marks are refused by 3.
 *
 * Scratch is four slices of S 16-bit numbers each, S being the number of
 * states; more is allowed. A call past number 8 leaves their first S at zero
 * and the rest untouched; earlier, untouched. Output is untouched on refusal.
 *
 * A call allocates nothing, keeps nothing and may run beside others on other
 * memory. Its tables live on the stack, which matters to threads with small
 * stacks: docs/ARCHITECTURE.md has their size.
 *
 * The library is built for x86-64 with the calling convention of System V
 * (Linux), and needs a processor of x86-64-v2 or later, which it does not test;
 * nothing in this header is bound to that. */
#ifndef DRIFT_H
#define DRIFT_H

#include <stddef.h>
#include <stdint.h>

#ifdef __cplusplus
extern "C" {
#endif

/* A number of the scratch. */
typedef uint16_t drift_word;

/* The most states that an accepted model has: scratch of this length is
 * enough for every model. */
#define DRIFT_MOST_STATES 15816

/* The most bytes that a passing sheet takes, of any model: its first number,
 * and up to three bytes for each state. drift_room tells what one model needs.
 * A trail has no such bound here; where the output is too short for ours, the
 * writer returns 9. */
#define DRIFT_MOST_SHEET_BYTES (1 + 3 * DRIFT_MOST_STATES)

/* What a call returns: 0, or the number of the refusal. */
enum drift_number {
    DRIFT_OK = 0,
    DRIFT_ENDS_TOO_SOON = 1,       /* bytes end too soon */
    DRIFT_NUMBER_TOO_LONG = 2,     /* third byte has its top bit set */
    DRIFT_BAD_HEADER = 3,          /* header number out of range */
    DRIFT_BAD_LOCATION = 4,        /* location number out of range */
    DRIFT_BAD_EDGE = 5,            /* edge number out of range, or low above high */
    DRIFT_BYTES_REMAIN = 6,        /* bytes remain at the end */
    DRIFT_CLOCK_UNRESET = 7,       /* a walk of edges that can open leaves a clock unreset */
    DRIFT_SCRATCH_TOO_SHORT = 8,   /* a scratch slice is shorter than S */
    DRIFT_OUTPUT_TOO_SHORT = 9,    /* output too short for the marks, evidence or plan */
    DRIFT_NO_EVIDENCE = 10,        /* evidence begins with neither 1 nor 2 */
    DRIFT_BAD_SHEET_NUMBER = 11,   /* sheet number above 2S-1, or not 0 where not allowed */
    DRIFT_SHEET_RULE_BROKEN = 12,  /* a sheet rule broken */
    DRIFT_BAD_STEP = 13,           /* a trail step doesn't replay */
    DRIFT_ENDS_ORDINARY = 14,      /* trail ends in an ordinary location */
    DRIFT_PADDED = 15,             /* evidence number not in shortest form */
    DRIFT_UNREACHED = 16,          /* no such location, or no run gets there */
    DRIFT_NOT_JOINT = 17           /* a walk of edges that can open has none that resets every clock */
};

/* What passed the check of evidence. */
enum drift_kind {
    DRIFT_SHEET = 1,
    DRIFT_TRAIL = 2
};

/* The room that the plan needs, from its bytes alone: nothing is marked, and
 * nothing is lent. S is exact, and so is the length of each scratch slice, S
 * again: with four slices so long no call returns 8, and with one of them
 * shorter every call that is lent scratch does. No sheet that passes for the
 * plan has more bytes than the sheet limit, so that with so much output
 * drift_write_evidence and drift_write_joint never return 9 where the plan is
 * safe. Our trail has at most S-1 steps. Of its bytes nothing is said: with
 * that output a trail may still get 9. Refusals 1 to 7.
 *
 * The answer: number + 2^16 * S + 2^40 * sheet limit. See drift_states,
 * drift_scratch, drift_sheet_limit, drift_step_limit. */
uint64_t drift_room(const uint8_t *model, size_t model_length);

/* The verdict on the plan that the model's bytes spell. Refusals 1 to 8.
 *
 * The answer: number + 2^8 * verdict (0 safe, 1 unsafe) + 2^16 * S +
 * 2^40 * count, the count being the in-states if safe, or the steps of our
 * trail. See drift_is_unsafe, drift_states, drift_count. */
uint64_t drift_judge(
    const uint8_t *model, size_t model_length,
    drift_word *s1, size_t s1_length,
    drift_word *s2, size_t s2_length,
    drift_word *s3, size_t s3_length,
    drift_word *s4, size_t s4_length);

/* Into the output's first S bytes a mark for each state, in state order: 1
 * if it is in the marked set, else 0. The rest of the output is untouched.
 * Refusals 1 to 9.
 *
 * The answer: number + 2^16 * S. See drift_states. */
uint64_t drift_marks(
    const uint8_t *model, size_t model_length,
    drift_word *s1, size_t s1_length,
    drift_word *s2, size_t s2_length,
    drift_word *s3, size_t s3_length,
    drift_word *s4, size_t s4_length,
    uint8_t *out, size_t out_length);

/* Our evidence for the plan, from the output's first byte: a sheet if it is
 * safe, a trail if it is unsafe. The rest of the output is untouched.
 * Refusals 1 to 9.
 *
 * The answer: number + 2^8 * verdict (0 safe, 1 unsafe) + 2^16 * bytes
 * written. See drift_is_unsafe, drift_written. */
uint64_t drift_write_evidence(
    const uint8_t *model, size_t model_length,
    drift_word *s1, size_t s1_length,
    drift_word *s2, size_t s2_length,
    drift_word *s3, size_t s3_length,
    drift_word *s4, size_t s4_length,
    uint8_t *out, size_t out_length);

/* The judge, the marks and the evidence writer for plans with a joint reset,
 * and quicker: in such a plan each closed walk of edges that can open has an
 * edge that resets every clock. The three do without touch steps. Verdict, S,
 * marks, in-states and sheet are those of drift_judge, drift_marks and
 * drift_write_evidence. A trail has no touch, has the fewest steps of all that
 * pass without one, and passes the check; the count of an unsafe plan is its
 * steps, which may be more than drift_judge tells.
 *
 * Refusals 1 to 8; then 17 for any other plan, which leaves the scratch's first
 * S at zero like an answer; 9, of the last two, comes after it. Who is refused
 * by 17 asks drift_judge and its like. With one clock 17 never comes.
 *
 * The answers are made as theirs. */
uint64_t drift_judge_joint(
    const uint8_t *model, size_t model_length,
    drift_word *s1, size_t s1_length,
    drift_word *s2, size_t s2_length,
    drift_word *s3, size_t s3_length,
    drift_word *s4, size_t s4_length);

uint64_t drift_marks_joint(
    const uint8_t *model, size_t model_length,
    drift_word *s1, size_t s1_length,
    drift_word *s2, size_t s2_length,
    drift_word *s3, size_t s3_length,
    drift_word *s4, size_t s4_length,
    uint8_t *out, size_t out_length);

uint64_t drift_write_joint(
    const uint8_t *model, size_t model_length,
    drift_word *s1, size_t s1_length,
    drift_word *s2, size_t s2_length,
    drift_word *s3, size_t s3_length,
    drift_word *s4, size_t s4_length,
    uint8_t *out, size_t out_length);

/* Whether evidence from anywhere passes for the plan: its bytes spell, with
 * nothing after and each number in its shortest form, a sheet that keeps the
 * rules or a trail whose steps all replay and which ends in a forbidden
 * location. Refusals 1 to 8 of the model, which leave the scratch untouched;
 * then 1, 2, 6 and 10 to 15 of the evidence, which leave its first S at zero.
 * A padded model is read as ever.
 *
 * The answer: number + 2^8 * kind (1 sheet, 2 trail). See drift_kind_of. */
uint64_t drift_check_evidence(
    const uint8_t *model, size_t model_length,
    const uint8_t *evidence, size_t evidence_length,
    drift_word *s1, size_t s1_length,
    drift_word *s2, size_t s2_length,
    drift_word *s3, size_t s3_length,
    drift_word *s4, size_t s4_length);

/* The shortest form of the plan, from the output's first byte: each number in
 * as few bytes as it takes, and a stay field as 0 where 0 means its limit. It
 * keeps the mark and reads as the plan does; plans of one mark and of the same
 * content have the same one, and no such plan is shorter; so an output as long
 * as the model is always enough. The rest of the output is untouched. It needs
 * no scratch. Refusals 1 to 7, then 9.
 *
 * The answer: number + 2^16 * bytes written. See drift_written. */
uint64_t drift_write_plan(
    const uint8_t *model, size_t model_length,
    uint8_t *out, size_t out_length);

/* The least time from the start to a location with perfect clocks, in whole
 * units: some run on whole times takes just that long, and no run takes less,
 * on whatever times. A run passes through forbidden locations as through
 * others. The start location gives 0. Refusals 1 to 8; then 16 where the
 * location number, however large, is no location's or no run gets there, which
 * leaves the scratch's first S at zero like an answer.
 *
 * So a plan is clean with perfect clocks exactly where every forbidden location
 * gives 16; and then, though it may be unsafe, no widened run of at most K jumps
 * with (K+1)e < D enters one.
 *
 * The answer: number + 2^16 * units; the bits 8 to 15 are 0. See
 * drift_units. */
uint64_t drift_soonest(
    const uint8_t *model, size_t model_length,
    uint64_t location,
    drift_word *s1, size_t s1_length,
    drift_word *s2, size_t s2_length,
    drift_word *s3, size_t s3_length,
    drift_word *s4, size_t s4_length);

/* The number whose first byte stands at an offset, any offset, and whether its
 * form was padded: evidence with such a number is refused by 15, this reader
 * gives it. Refusals 1 and 2; a reader then stays where it is. At the end of
 * the bytes it is 1.
 *
 * The answer: number + 2^8 * value + 2^31 * padded (0 shortest, 1 padded) +
 * 2^32 * next, the offset after the number, of which the word has room for the
 * lower 32 bits. See drift_value, drift_is_padded, drift_next. */
uint64_t drift_next_number(const uint8_t *bytes, size_t bytes_length, size_t at);

/* Beyond 01: how slight a drift is harmless for ever if the plan is safe.
 * Every drift below 1/A of a unit is, A being the margin. This one is had from
 * the drawing alone, without scratch; drift_sheet_margin is far sharper.
 * Refusals 1 to 7.
 *
 * The answer: number + 2^16 * S + 2^40 * A. See drift_states,
 * drift_margin_of. */
uint64_t drift_margin(const uint8_t *model, size_t model_length);

/* Beyond 01: the same by our sheet. Refusals 1 to 8.
 *
 * The answer: number + 2^8 * verdict (0 safe, 1 unsafe) + 2^16 * S + 2^40 * A,
 * A being 0 where unsafe. See drift_is_unsafe, drift_states,
 * drift_margin_of. */
uint64_t drift_sheet_margin(
    const uint8_t *model, size_t model_length,
    drift_word *s1, size_t s1_length,
    drift_word *s2, size_t s2_length,
    drift_word *s3, size_t s3_length,
    drift_word *s4, size_t s4_length);

/* Beyond 01: within how many jumps drift does harm if the plan is unsafe, into
 * the output's first two numbers: base and rate. For drift e/D and every q
 * with D <= q * e some widened run of at most base + rate * q jumps enters a
 * forbidden location. The rest of the output is untouched, and all of it where
 * the plan is safe. Refusals 1 to 8; 9, last, where the plan is unsafe and the
 * output has room for fewer than two numbers.
 *
 * The answer: number + 2^8 * verdict (0 safe, 1 unsafe) + 2^16 * S. See
 * drift_is_unsafe, drift_states. */
uint64_t drift_harm(
    const uint8_t *model, size_t model_length,
    drift_word *s1, size_t s1_length,
    drift_word *s2, size_t s2_length,
    drift_word *s3, size_t s3_length,
    drift_word *s4, size_t s4_length,
    uint64_t *out, size_t out_length);

/* The number that every call returns: 0, or the refusal, with which all other
 * fields are 0. */
static inline unsigned drift_number_of(uint64_t answer)
{
    return (unsigned)(answer & 0xff);
}

/* Of drift_judge, drift_write_evidence and their joint forms, drift_sheet_margin
 * and drift_harm: 1 if unsafe, 0 if safe. */
static inline int drift_is_unsafe(uint64_t answer)
{
    return (answer >> 8 & 0xff) == 1;
}

/* Of drift_margin and drift_sheet_margin: A. */
static inline uint32_t drift_margin_of(uint64_t answer)
{
    return (uint32_t)(answer >> 40);
}

/* Of all that tell it (drift_room, drift_judge, drift_marks and their joint
 * forms, the margins, drift_harm): S. */
static inline size_t drift_states(uint64_t answer)
{
    return (size_t)(answer >> 16 & 0xffffff);
}

/* Of drift_room: the length of each of the four scratch slices. */
static inline size_t drift_scratch(uint64_t answer)
{
    return drift_states(answer);
}

/* Of drift_room: the most bytes of a sheet. */
static inline size_t drift_sheet_limit(uint64_t answer)
{
    return (size_t)(answer >> 40);
}

/* Of drift_room: the most steps of our trail; 0 on refusal. */
static inline size_t drift_step_limit(uint64_t answer)
{
    size_t states = drift_states(answer);
    return states == 0 ? 0 : states - 1;
}

/* Of drift_judge and drift_judge_joint: the in-states if safe, the steps of our
 * trail if unsafe. */
static inline size_t drift_count(uint64_t answer)
{
    return (size_t)(answer >> 40);
}

/* Of drift_write_evidence, drift_write_joint and drift_write_plan: the number of
 * bytes written. */
static inline size_t drift_written(uint64_t answer)
{
    return (size_t)(answer >> 16);
}

/* Of drift_soonest: the time in units. */
static inline uint32_t drift_units(uint64_t answer)
{
    return (uint32_t)(answer >> 16);
}

/* Of drift_check_evidence: DRIFT_SHEET or DRIFT_TRAIL. */
static inline unsigned drift_kind_of(uint64_t answer)
{
    return (unsigned)(answer >> 8 & 0xff);
}

/* Of drift_next_number: the number read, at most 2,097,151. */
static inline uint32_t drift_value(uint64_t answer)
{
    return (uint32_t)(answer >> 8 & 0x1fffff);
}

/* Of drift_next_number: whether fewer bytes spell that number too. */
static inline int drift_is_padded(uint64_t answer)
{
    return (int)(answer >> 31 & 1);
}

/* Of drift_next_number at an offset: the offset after the number. It lies one
 * to three bytes on, which the lower 32 bits tell. Not for a refusal. */
static inline size_t drift_next(uint64_t answer, size_t at)
{
    return at + (uint32_t)((uint32_t)(answer >> 32) - (uint32_t)at);
}

#ifdef __cplusplus
}
#endif

#endif
