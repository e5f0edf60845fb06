/* Plans a job file; then, at minute 10 of that day, the crew wants fact 0 alone, and the rest of the day is planned
 * anew. Usage: replan FILE */
#include "../include/ruhkevois.h"

#include <stdio.h>

/* The answer in a line, then start and action of each step; 1 where there is no plan. */
static int print_plan(const char *what, uint64_t answer, const uint8_t *plan) {
    if (RUHKEVOIS_KIND(answer) == RUHKEVOIS_REFUSED) {
        printf("%s: refused %u\n", what, RUHKEVOIS_NUMBER(answer));
        return 1;
    }
    printf("%s: end %u\n", what, (unsigned)RUHKEVOIS_END(answer));
    for (unsigned i = 0; i < RUHKEVOIS_STEPS(answer); i++) {
        printf("%u %u\n", RUHKEVOIS_START(plan, i), RUHKEVOIS_ACTION(plan, i));
    }
    return 0;
}

int main(int argc, char **argv) {
    const uint32_t minute = 10;
    const uint64_t goal = (uint64_t)1 << 0;
    uint8_t file[RUHKEVOIS_FILE_BYTES + 1]; /* one byte more, so that a longer file is refused and not cut */
    uint8_t current[RUHKEVOIS_PLAN_BYTES], plan[RUHKEVOIS_PLAN_BYTES];
    uint32_t peaks[RUHKEVOIS_POOLS];
    FILE *input = argc == 2 ? fopen(argv[1], "rb") : NULL;
    if (input == NULL) {
        fprintf(stderr, "usage: replan FILE, a job file that can be read\n");
        return 2;
    }
    size_t length = fread(file, 1, sizeof file, input);
    fclose(input);

    uint64_t answer = ruhkevois_plan(file, length, current, sizeof current, peaks);
    if (print_plan("planned", answer, current) != 0) {
        return 1;
    }
    size_t bytes = RUHKEVOIS_STEP_BYTES * RUHKEVOIS_STEPS(answer);
    answer = ruhkevois_replan(file, length, current, bytes, minute, goal, plan, sizeof plan, peaks);
    return print_plan("replanned", answer, plan);
}
