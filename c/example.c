/* Asks what room the loop plan of document 01 needs and makes it, judges the
 * plan, asks the quicker judge, writes the plan's evidence, checks that, reads
 * it number by number, and asks how soon drift does harm and how soon perfect
 * clocks get to each location.
 *
 *     cc -I c -o target/example c/example.c crates/drift_c/out/libdrift_c.a
 */
#include "drift.h"

#include <stdio.h>
#include <stdlib.h>

#define LOCATIONS 4

/* Clean with perfect clocks, unsafe under drift. */
static const uint8_t plan[] = {
    1, 2, 2, 4, 4, 0,                   /* mark, clocks, ceiling, locations, edges, start */
    0, 0, 0, 0, 0, 0, 0, 0, 0, 1, 0, 0, /* kind and stay fields of each location */
    0, 1, 2, 1, 1, 1, 1,                /* from, to, reset mask, low and high of each clock */
    1, 2, 1, 0, 2, 0, 2,
    2, 1, 2, 0, 2, 2, 2,
    2, 3, 0, 0, 0, 2, 2
};

/* Made by what drift_room tells. */
static drift_word *s1, *s2, *s3, *s4;
static uint8_t *evidence;
static size_t scratch, room;

/* An answer that is no refusal. */
static uint64_t accepted(uint64_t answer)
{
    unsigned number = drift_number_of(answer);
    if (number != DRIFT_OK) {
        printf("refused %u\n", number);
        exit(EXIT_FAILURE);
    }
    return answer;
}

/* Memory for so many elements. */
static void *made(size_t count, size_t size)
{
    void *memory = calloc(count, size);
    if (memory == NULL) {
        printf("no memory\n");
        exit(EXIT_FAILURE);
    }
    return memory;
}

/* Enough scratch for every call, and output for every sheet. */
static void make_room(void)
{
    uint64_t answer = accepted(drift_room(plan, sizeof plan));
    scratch = drift_scratch(answer);
    room = drift_sheet_limit(answer);
    printf("room for %zu numbers of scratch, four times\n", scratch);
    printf("room for %zu bytes of a sheet, %zu steps of a trail\n", room, drift_step_limit(answer));
    s1 = made(scratch, sizeof *s1);
    s2 = made(scratch, sizeof *s2);
    s3 = made(scratch, sizeof *s3);
    s4 = made(scratch, sizeof *s4);
    evidence = made(room, sizeof *evidence);
}

static void free_room(void)
{
    free(s1);
    free(s2);
    free(s3);
    free(s4);
    free(evidence);
}

static void judge(void)
{
    uint64_t answer = accepted(drift_judge(
        plan, sizeof plan, s1, scratch, s2, scratch, s3, scratch, s4, scratch));
    int is_unsafe = drift_is_unsafe(answer);
    printf("verdict %s\n", is_unsafe ? "unsafe" : "safe");
    printf("states %zu\n", drift_states(answer));
    printf("%s %zu\n", is_unsafe ? "steps" : "in", drift_count(answer));
}

/* The quicker judge takes plans with a joint reset; this one resets its clocks
 * one by one. */
static void judge_joint(void)
{
    uint64_t answer = drift_judge_joint(
        plan, sizeof plan, s1, scratch, s2, scratch, s3, scratch, s4, scratch);
    int is_joint = drift_number_of(answer) != DRIFT_NOT_JOINT;
    printf("joint reset %s\n", is_joint ? "yes" : "no");
}

/* The number of bytes written. The plan is unsafe, so that a trail is written,
 * which could be longer than any sheet; this one is not. */
static size_t write_evidence(void)
{
    uint64_t answer = accepted(drift_write_evidence(
        plan, sizeof plan, s1, scratch, s2, scratch, s3, scratch, s4, scratch, evidence, room));
    printf("bytes %zu\n", drift_written(answer));
    return drift_written(answer);
}

static void check(size_t length)
{
    uint64_t answer = accepted(drift_check_evidence(
        plan, sizeof plan, evidence, length, s1, scratch, s2, scratch, s3, scratch, s4, scratch));
    printf("passes %s\n", drift_kind_of(answer) == DRIFT_SHEET ? "sheet" : "trail");
}

static void read_numbers(size_t length)
{
    size_t at = 0;
    printf("numbers");
    while (at < length) {
        uint64_t answer = accepted(drift_next_number(evidence, length, at));
        printf(" %lu", (unsigned long)drift_value(answer));
        at = drift_next(answer, at);
    }
    printf("\n");
}

/* The jumps before harm, for every q with D <= q * e at drift e/D. */
static void harm(void)
{
    uint64_t out[2];
    uint64_t answer = accepted(drift_harm(
        plan, sizeof plan, s1, scratch, s2, scratch, s3, scratch, s4, scratch, out, 2));
    if (drift_is_unsafe(answer))
        printf("harm within %llu + %lluq jumps\n",
            (unsigned long long)out[0], (unsigned long long)out[1]);
}

/* The least time to each location; the forbidden one, the last, has none. */
static void soonest(void)
{
    uint64_t location;
    printf("soonest");
    for (location = 0; location < LOCATIONS; location++) {
        uint64_t answer = drift_soonest(
            plan, sizeof plan, location, s1, scratch, s2, scratch, s3, scratch, s4, scratch);
        if (drift_number_of(answer) == DRIFT_UNREACHED)
            printf(" never");
        else
            printf(" %lu", (unsigned long)drift_units(accepted(answer)));
    }
    printf("\n");
}

int main(void)
{
    size_t length;
    make_room();
    judge();
    judge_joint();
    length = write_evidence();
    check(length);
    read_numbers(length);
    harm();
    soonest();
    free_room();
    return EXIT_SUCCESS;
}
