/* Plans a job file in two halves, with lunch at the base in between: at halftime the van is back (fact 0) and the first
 * point is observed (fact 2). Says what lunch costs against the shortest day, then joins breakfast, a step of action 4,
 * to the front and checks the whole day. Usage: halves FILE */
#include "../include/ruhkevois.h"

#include <stdio.h>

/* The answer in a line, with action@minute for each step; 1 where there is no day. */
static int print_day(const char *what, uint64_t answer, const uint8_t *plan) {
    if (RUHKEVOIS_KIND(answer) == RUHKEVOIS_REFUSED) {
        printf("%s: refused %u\n", what, RUHKEVOIS_NUMBER(answer));
        return 1;
    }
    printf("%s: end %u", what, (unsigned)RUHKEVOIS_END(answer));
    for (unsigned i = 0; i < RUHKEVOIS_STEPS(answer); i++) {
        printf(" %u@%u", RUHKEVOIS_ACTION(plan, i), RUHKEVOIS_START(plan, i));
    }
    printf("\n");
    return 0;
}

int main(int argc, char **argv) {
    const uint64_t halfway = (uint64_t)1 << 0 | (uint64_t)1 << 2;
    const uint8_t breakfast[RUHKEVOIS_STEP_BYTES] = {4, 0, 0};
    uint8_t file[RUHKEVOIS_FILE_BYTES + 1]; /* one byte more, so that a longer file is refused and not cut */
    uint8_t whole[RUHKEVOIS_PLAN_BYTES], halves[RUHKEVOIS_PLAN_BYTES], joined[RUHKEVOIS_PLAN_BYTES];
    uint32_t peaks[RUHKEVOIS_POOLS];
    FILE *input = argc == 2 ? fopen(argv[1], "rb") : NULL;
    if (input == NULL) {
        fprintf(stderr, "usage: halves FILE, a job file that can be read\n");
        return 2;
    }
    size_t length = fread(file, 1, sizeof file, input);
    fclose(input);

    uint64_t shortest = ruhkevois_list(file, length, 0, whole, sizeof whole, peaks);
    if (print_day("whole day", shortest, whole) != 0) {
        return 1;
    }
    uint64_t answer = ruhkevois_halves(file, length, halfway, halves, sizeof halves, peaks);
    if (print_day("two halves", answer, halves) != 0) {
        return 1;
    }
    printf("lunch costs %u minutes\n", (unsigned)(RUHKEVOIS_END(answer) - RUHKEVOIS_END(shortest)));

    size_t bytes = RUHKEVOIS_STEP_BYTES * RUHKEVOIS_STEPS(answer);
    answer = ruhkevois_join(file, length, breakfast, sizeof breakfast, halves, bytes, joined, sizeof joined, peaks);
    if (print_day("with breakfast", answer, joined) != 0) {
        return 1;
    }
    bytes = RUHKEVOIS_STEP_BYTES * RUHKEVOIS_STEPS(answer);
    answer = ruhkevois_check(file, length, joined, bytes, peaks);
    return print_day("checked", answer, joined);
}
