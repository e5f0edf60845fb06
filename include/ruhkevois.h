/*
 * Ruhkevois 0.2.0: shortest field days, with a machine-checked proof. The calls for C.
 *
 * Link libcalls.a (`include/build` writes target/staticlib/libcalls.a, for x86-64 Linux). No call allocates, keeps a
 * pointer, reads or writes a file, or has any state: all are safe from several threads at once.
 *
 * Slices. A slice is two parameters, a pointer and a number of bytes. The caller owns every slice; a call borrows it
 * until it returns. Bytes behind a pointer to const are only read. A slice that is written must overlap no other slice
 * of the same call. A pointer is never null, also where the length is 0. Bad pointers and wrong lengths are the
 * caller's; any bytes at all are answered, bad ones by a refusal.
 *
 * A job crosses as the bytes of its file, at most 4,096 (README.md has the layout). A plan is at most 32 steps of 3
 * bytes: the action (1 byte), then the start minute (2 bytes, little-endian).
 *
 * Answers. Every call answers one number, packed the same way (but for a price that is done, see ruhkevois_price):
 *
 *   bits  0 to  7   kind: RUHKEVOIS_DONE, RUHKEVOIS_REFUSED or RUHKEVOIS_UNREACHABLE
 *   bits  8 to 15   number of the refusal, 1 to 35 (README.md has the table); 0 unless refused
 *   bits 16 to 47   end: a plan's or a true day's end, an earliest time, or a file's length; 0 unless done
 *   bits 48 to 63   number of steps of a plan that was written or of a true day; 0 otherwise
 *
 * Of the refusals that hold, the one with the place first in the table is told. The file is looked at first: where
 * both the file and the plan, set or slice are bad, one of the file's refusals is told: 1 to 11, 26, 27, 29 or 31. A
 * refusal changes no byte of any slice, and no number of `peaks`.
 *
 * Peaks. A call that checks a day, hands one out or is told how it went also borrows an array of four numbers. It puts
 * into it for each pool the most that is in use in any minute, and 0 for a pool that the job lacks. The array is never
 * null and overlaps no slice of the same call.
 */
#ifndef RUHKEVOIS_H
#define RUHKEVOIS_H

#include <stddef.h>
#include <stdint.h>

#ifdef __cplusplus
extern "C" {
#endif

#define RUHKEVOIS_VERSION "0.2.0"

/* The kinds of answers. */
#define RUHKEVOIS_DONE 0
#define RUHKEVOIS_REFUSED 1
#define RUHKEVOIS_UNREACHABLE 2

/* The parts of an answer. */
#define RUHKEVOIS_KIND(answer) ((unsigned)((uint64_t)(answer) & 0xff))
#define RUHKEVOIS_NUMBER(answer) ((unsigned)((uint64_t)(answer) >> 8 & 0xff))
#define RUHKEVOIS_END(answer) ((uint32_t)((uint64_t)(answer) >> 16 & 0xffffffff))
#define RUHKEVOIS_STEPS(answer) ((unsigned)((uint64_t)(answer) >> 48))

/* The cents, where ruhkevois_price is done. */
#define RUHKEVOIS_PRICE(answer) ((uint64_t)(answer) >> 8)

/* The most bytes of a job file, of a plan, and the bytes of a step. */
#define RUHKEVOIS_FILE_BYTES 4096
#define RUHKEVOIS_PLAN_BYTES 96
#define RUHKEVOIS_STEP_BYTES 3

/* The most pools of a job: the numbers in an array of peaks. */
#define RUHKEVOIS_POOLS 4

/* The action and the start minute of step i of a plan's bytes. */
#define RUHKEVOIS_ACTION(plan, i) ((unsigned)(plan)[3 * (i)])
#define RUHKEVOIS_START(plan, i) ((unsigned)(plan)[3 * (i) + 1] | (unsigned)(plan)[3 * (i) + 2] << 8)

/*
 * Whether a job file is accepted.
 * Done: end is the file's length. Refused: the file's.
 */
uint64_t ruhkevois_read(const uint8_t *file, size_t file_length);

/*
 * Reads a job file and writes its job again, at the front of `out`: an accepted file comes out byte for byte.
 * Done: end is the number of bytes written; the bytes of `out` behind them are kept.
 * Refused: the file's; 23 where `out` is shorter than the file.
 */
uint64_t ruhkevois_rewrite(const uint8_t *file, size_t file_length, uint8_t *out, size_t out_length);

/*
 * Whether a plan is accepted for the job of a file and its goal.
 * Done: end is the plan's end, and `peaks` has the peak of each pool.
 * Refused: the file's, then 12 to 20 for the plan; `peaks` is kept as it was.
 */
uint64_t ruhkevois_check(const uint8_t *file, size_t file_length, const uint8_t *plan, size_t plan_length,
    uint32_t peaks[RUHKEVOIS_POOLS]);

/*
 * What a plan for the job of a file costs, in cents. `pool_rates` has a rate for a unit of each of four pools and a
 * started quarter hour of a step, `store_rates` one for a unit of each of four stores, which counts for each started
 * hour where the file's head has 20 bytes; each is at most 100,000. Rates beyond the job's pools and stores are
 * ignored, but the arrays have four. `evening` is the percentage, at most 100, on the pool charges of steps that end
 * after minute 480; it is worked out once for all of them, and rounded to the cent, halves up.
 * Done: the cents are in bits 8 to 63, RUHKEVOIS_PRICE(answer). Refused: the file's, 12 to 20 for the plan, then 25 for
 * a rate or the percentage, in bits 8 to 15 as in every call.
 */
uint64_t ruhkevois_price(const uint8_t *file, size_t file_length, const uint8_t *plan, size_t plan_length,
                         const uint32_t pool_rates[4], const uint32_t store_rates[4], uint32_t evening);

/*
 * The earliest time of a set of facts (fact n is bit n): no plan for the job of the file has all of them together
 * before that minute.
 * Done: end is the minute, at most 530,400. Unreachable: no plan ever has all of them. Refused: the file's, then 24.
 */
uint64_t ruhkevois_earliest(const uint8_t *file, size_t file_length, uint64_t set);

/*
 * Writes a shortest plan for the job of a file to the front of `out`, which has room for 96 bytes.
 * Done: end is the plan's end, and no accepted plan ends earlier; steps is its number of steps, three bytes each; the
 * bytes of `out` behind them are kept. `peaks` has the peak of each pool in that plan.
 * Refused: the file's; 21 where `out` has under 96 bytes; 22 where the job has no plan; `out` and `peaks` are kept as
 * they were.
 * The search takes as long as the job demands: README.md says how to bound it.
 */
uint64_t ruhkevois_plan(const uint8_t *file, size_t file_length, uint8_t *out, size_t out_length,
    uint32_t peaks[RUHKEVOIS_POOLS]);

/*
 * Writes the plan at a place of the list of all the shortest plans for the job of a file to the front of `out`, which
 * has room for 96 bytes. The list has every accepted plan that ends at the least minute and from which no single step
 * can be dropped with the rest still accepted: all of them and only those, each once. Plans are compared step by step,
 * by start, then by action; a plan that begins another comes first. Places count from 0: to leaf through the list, ask
 * for 0, 1, 2 and so on until the answer is 28.
 * Done: end, steps, `out` and `peaks` as from ruhkevois_plan, of the plan at that place. The end is the same at every
 * place, and the one that ruhkevois_plan gives.
 * Refused: the file's; 21 where `out` has under 96 bytes; 22 where the job has no plan, at every place; 28 where the
 * list has no plan at the place, which never happens at place 0; `out` and `peaks` are kept as they were.
 * Each call walks the list from its beginning and searches on the way, as long as the job and the place demand:
 * README.md says how to bound it.
 */
uint64_t ruhkevois_list(const uint8_t *file, size_t file_length, uint32_t place, uint8_t *out, size_t out_length,
    uint32_t peaks[RUHKEVOIS_POOLS]);

/*
 * Replans a day that has begun: writes a shortest plan for a new goal to the front of `out`, which has room for 96
 * bytes. The steps of the current plan `plan` that start before `minute` are kept as they are; all others may be
 * replaced by steps that start at `minute` or later. At minute 0 nothing is kept, past the deadline every step is. The
 * goal is a set of facts (fact n is bit n); neither the file's own goal nor whether the current plan meets it matters.
 * Done: end, steps, `out` and `peaks` as from ruhkevois_plan, of the whole day with its kept steps. Where these meet
 * the goal none are added; otherwise no accepted plan that keeps them, and starts none other before the minute, ends
 * earlier.
 * Refused: the file's; 24 where the job lacks a fact of the goal; 12 to 19 for the current plan; 21 where `out` has
 * under 96 bytes; 35 where no plan with the kept steps is accepted; `out` and `peaks` are kept as they were.
 * The search takes as long as the job demands: README.md says how to bound it.
 */
uint64_t ruhkevois_replan(const uint8_t *file, size_t file_length, const uint8_t *plan, size_t plan_length,
    uint32_t minute, uint64_t goal, uint8_t *out, size_t out_length, uint32_t peaks[RUHKEVOIS_POOLS]);

/*
 * How the day of a plan went, where its steps took these true lengths: `lengths` has a byte of minutes for each step,
 * in the plan's order, from the shortest length of the step's action to its longest. In a file of four entries or five
 * the shortest is the longest. The plan is for the job of the file and its goal, as for ruhkevois_check, with the
 * longest lengths; the same starts then pass with any lengths within the ranges, and the day ends no later.
 * Done: end is the largest start plus true length, 0 for no steps; steps is the number of steps. `peaks` has the peak
 * of each pool; a share is in use from the step's start to its true stop and the pool's handover after it.
 * Refused: the file's, 12 to 20 for the plan, then 30 where `lengths` has not one length for each step or one is
 * outside its range; `peaks` is kept as it was.
 */
uint64_t ruhkevois_true_day(const uint8_t *file, size_t file_length, const uint8_t *plan, size_t plan_length,
    const uint8_t *lengths, size_t lengths_length, uint32_t peaks[RUHKEVOIS_POOLS]);

/*
 * Joins two plans for the job of a file: writes the joined plan to the front of `out`, which has room for 96 bytes and
 * overlaps neither plan. An empty plan gives the other one. Otherwise the steps of the second stand behind those of the
 * first, and start later by the first's end plus the largest handover of all the job's pools. Both plans and the joined
 * one may break 16 to 20, which ruhkevois_check tells. Three plans joined from the left or from the right give the same
 * bytes and the same answer, or the same 34.
 * Done: end is the end of the joined plan; steps is its number of steps, three bytes each; the bytes of `out` behind
 * them are kept. `peaks` has the peak of each pool, which is more than the pool has where the plan breaks 17.
 * Refused: the file's; 12 to 15 for the first plan, then for the second; 21 where `out` has under 96 bytes; 34 where
 * the joined plan has over 32 steps or ends after the deadline; `out` and `peaks` are kept as they were.
 */
uint64_t ruhkevois_join(const uint8_t *file, size_t file_length, const uint8_t *first, size_t first_length,
    const uint8_t *second, size_t second_length, uint8_t *out, size_t out_length, uint32_t peaks[RUHKEVOIS_POOLS]);

/*
 * Plans the day of a file in two halves and joins them: the first for the set of facts `halfway` (fact n is bit n), the
 * second for the file's goal from the facts and stores that the first leaves. Each half is the plan at place 0 of its
 * list (ruhkevois_list), planned from minute 0 with the job's whole deadline; they are joined as by ruhkevois_join.
 * Done: end, steps, `out` and `peaks` as from ruhkevois_plan, of the joined day. ruhkevois_check accepts it with the
 * same end and peaks, and it never ends before the shortest whole day.
 * Refused: the file's; 24 where the job lacks a fact of `halfway`; 21 where `out` has under 96 bytes; 22 where either
 * half has no plan, even where the whole day has one; 34 where the joined day has over 32 steps or ends after the
 * deadline; `out` and `peaks` are kept as they were.
 * The search takes as long as the job demands: README.md says how to bound it.
 */
uint64_t ruhkevois_halves(const uint8_t *file, size_t file_length, uint64_t halfway, uint8_t *out, size_t out_length,
    uint32_t peaks[RUHKEVOIS_POOLS]);

/*
 * Pools the jobs of two files: writes the file of the one job that they become to the front of `out`. Facts and
 * actions of the second file are numbered behind those of the first: action k of the second is action n + k, where the
 * first has n, and so for facts. The start and goal sets join. Pools and stores add up place by place; one that a job
 * lacks counts 0, and such a pool takes the other job's handover. The later deadline holds, and the file has the form
 * with more entries of the two; there an action that had no shortest length gets its length.
 * Done: end is the number of bytes written; the bytes of `out` behind them are kept. The file is accepted by every
 * call. Where both jobs have plans with together at most 32 steps, the pooled day ends no later than the later of the
 * two; with the files in the other order it ends at the same minute, or is refused by the same 22.
 * Refused: the first file's; the second file's; 32 where the two have together over 64 facts or over 64 actions, or a
 * sum of a pool or store is over 1,000,000; 33 where the handovers of a pool that both have (0 in a file of four
 * entries), the lengths of the heads or the reserves differ; 23 where `out` is shorter than the pooled file, for which
 * RUHKEVOIS_FILE_BYTES are always enough; `out` is kept as it was.
 */
uint64_t ruhkevois_pool(const uint8_t *first, size_t first_length, const uint8_t *second, size_t second_length,
    uint8_t *out, size_t out_length);

#ifdef __cplusplus
}
#endif

#endif
