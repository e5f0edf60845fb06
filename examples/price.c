/* Plans a job file and prints what the plan costs: 500 cents for a unit and quarter hour of the first pool, 20 for a
 * unit of the first store, and half as much again for pools in the evening. Usage: price FILE */
#include "../include/ruhkevois.h"

#include <inttypes.h>
#include <stdio.h>

int main(int argc, char **argv) {
    const uint32_t pool_rates[4] = {500, 0, 0, 0}, store_rates[4] = {20, 0, 0, 0};
    uint8_t file[RUHKEVOIS_FILE_BYTES + 1]; /* one byte more, so that a longer file is refused and not cut */
    uint8_t plan[RUHKEVOIS_PLAN_BYTES];
    FILE *input = argc == 2 ? fopen(argv[1], "rb") : NULL;
    if (input == NULL) {
        fprintf(stderr, "usage: price FILE, a job file that can be read\n");
        return 2;
    }
    size_t length = fread(file, 1, sizeof file, input);
    fclose(input);

    uint32_t peaks[RUHKEVOIS_POOLS];
    uint64_t answer = ruhkevois_plan(file, length, plan, sizeof plan, peaks);
    if (RUHKEVOIS_KIND(answer) == RUHKEVOIS_DONE) {
        size_t bytes = RUHKEVOIS_STEP_BYTES * RUHKEVOIS_STEPS(answer);
        answer = ruhkevois_price(file, length, plan, bytes, pool_rates, store_rates, 50);
    }
    if (RUHKEVOIS_KIND(answer) == RUHKEVOIS_REFUSED) {
        printf("refused %u\n", RUHKEVOIS_NUMBER(answer));
        return 1;
    }
    printf("price %" PRIu64 "\n", RUHKEVOIS_PRICE(answer));
    return 0;
}
