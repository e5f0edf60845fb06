/* Plans a job file, checks the plan, and prints it as the day program does. Usage: plan FILE */
#include "../include/ruhkevois.h"

#include <stdio.h>
#include <string.h>

/* Where step i of the plan ends: its start and the length of its action, as the job file has it. */
static unsigned end_of_step(const uint8_t *file, const uint8_t *plan, unsigned i) {
    unsigned pools = file[6] / 4, stores = file[10] / 4;
    unsigned actions = file[12] | (unsigned)file[13] << 8;
    unsigned size = 25 + 4 * pools + 4 * stores;
    return RUHKEVOIS_START(plan, i) + file[actions + size * RUHKEVOIS_ACTION(plan, i)];
}

/* The line of the peaks: a number for each pool of the job. */
static void print_peaks(const uint8_t *file, const uint32_t peaks[RUHKEVOIS_POOLS]) {
    printf("peak");
    for (unsigned k = 0; k < file[6] / 4u; k++) {
        printf(" %u", (unsigned)peaks[k]);
    }
    printf("\n");
}

int main(int argc, char **argv) {
    uint8_t file[RUHKEVOIS_FILE_BYTES + 1]; /* one byte more, so that a longer file is refused and not cut */
    uint8_t plan[RUHKEVOIS_PLAN_BYTES];
    uint32_t peaks[RUHKEVOIS_POOLS], checked_peaks[RUHKEVOIS_POOLS];
    FILE *input = argc == 2 ? fopen(argv[1], "rb") : NULL;
    if (input == NULL) {
        fprintf(stderr, "usage: plan FILE, a job file that can be read\n");
        return 2;
    }
    size_t length = fread(file, 1, sizeof file, input);
    fclose(input);

    uint64_t answer = ruhkevois_plan(file, length, plan, sizeof plan, peaks);
    if (RUHKEVOIS_KIND(answer) == RUHKEVOIS_REFUSED) {
        printf("refused %u\n", RUHKEVOIS_NUMBER(answer));
        return 1;
    }
    unsigned steps = RUHKEVOIS_STEPS(answer);
    printf("makespan %u\nsteps %u\n", (unsigned)RUHKEVOIS_END(answer), steps);
    print_peaks(file, peaks);
    for (unsigned i = 0; i < steps; i++) {
        printf("%u %u %u\n", RUHKEVOIS_START(plan, i), end_of_step(file, plan, i), RUHKEVOIS_ACTION(plan, i));
    }

    uint64_t checked = ruhkevois_check(file, length, plan, RUHKEVOIS_STEP_BYTES * steps, checked_peaks);
    if (RUHKEVOIS_KIND(checked) != RUHKEVOIS_DONE || memcmp(peaks, checked_peaks, sizeof peaks) != 0) {
        return 1;
    }
    printf("checked: end %u\n", (unsigned)RUHKEVOIS_END(checked));
    return 0;
}
