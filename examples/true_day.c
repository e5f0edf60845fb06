/* Plans a job file of two observations under trees; they took 45 and 50 minutes, and the day as it went is told.
 * Usage: true_day FILE */
#include "../include/ruhkevois.h"

#include <stdio.h>

/* The answer in a line, with the peak of the first pool; 1 where there is no day. */
static int print_day(const char *what, uint64_t answer, const uint32_t peaks[RUHKEVOIS_POOLS]) {
    if (RUHKEVOIS_KIND(answer) == RUHKEVOIS_REFUSED) {
        printf("%s: refused %u\n", what, RUHKEVOIS_NUMBER(answer));
        return 1;
    }
    printf("%s: end %u, peak %u\n", what, (unsigned)RUHKEVOIS_END(answer), (unsigned)peaks[0]);
    return 0;
}

int main(int argc, char **argv) {
    const uint8_t lengths[2] = {45, 50};
    uint8_t file[RUHKEVOIS_FILE_BYTES + 1]; /* one byte more, so that a longer file is refused and not cut */
    uint8_t plan[RUHKEVOIS_PLAN_BYTES];
    uint32_t peaks[RUHKEVOIS_POOLS];
    FILE *input = argc == 2 ? fopen(argv[1], "rb") : NULL;
    if (input == NULL) {
        fprintf(stderr, "usage: true_day FILE, a job file that can be read\n");
        return 2;
    }
    size_t length = fread(file, 1, sizeof file, input);
    fclose(input);

    uint64_t answer = ruhkevois_plan(file, length, plan, sizeof plan, peaks);
    if (print_day("planned", answer, peaks) != 0) {
        return 1;
    }
    size_t bytes = RUHKEVOIS_STEP_BYTES * RUHKEVOIS_STEPS(answer);
    answer = ruhkevois_true_day(file, length, plan, bytes, lengths, sizeof lengths, peaks);
    return print_day("true day", answer, peaks);
}
