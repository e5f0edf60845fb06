/* Leafs through all the shortest days of a job file: prints the first four, a line each with action@minute for every
 * step, and says how many there are, where the list is short. Usage: list FILE */
#include "../include/ruhkevois.h"

#include <stdio.h>

int main(int argc, char **argv) {
    const uint32_t shown = 4, most = 50; /* days to print, and to count */
    const unsigned list_ended = 28;
    uint8_t file[RUHKEVOIS_FILE_BYTES + 1]; /* one byte more, so that a longer file is refused and not cut */
    uint8_t plan[RUHKEVOIS_PLAN_BYTES];
    uint32_t peaks[RUHKEVOIS_POOLS];
    FILE *input = argc == 2 ? fopen(argv[1], "rb") : NULL;
    if (input == NULL) {
        fprintf(stderr, "usage: list FILE, a job file that can be read\n");
        return 2;
    }
    size_t length = fread(file, 1, sizeof file, input);
    fclose(input);

    for (uint32_t place = 0; place < most; place++) {
        uint64_t answer = ruhkevois_list(file, length, place, plan, sizeof plan, peaks);
        if (RUHKEVOIS_KIND(answer) == RUHKEVOIS_REFUSED && RUHKEVOIS_NUMBER(answer) != list_ended) {
            printf("refused %u\n", RUHKEVOIS_NUMBER(answer));
            return 1;
        }
        if (RUHKEVOIS_KIND(answer) == RUHKEVOIS_REFUSED) {
            printf("shortest days: %u\n", (unsigned)place);
            return 0;
        }
        if (place < shown) {
            printf("%u: end %u", (unsigned)place, (unsigned)RUHKEVOIS_END(answer));
            for (unsigned i = 0; i < RUHKEVOIS_STEPS(answer); i++) {
                printf(" %u@%u", RUHKEVOIS_ACTION(plan, i), RUHKEVOIS_START(plan, i));
            }
            printf("\n");
        }
    }
    printf("shortest days: %u or more\n", (unsigned)most);
    return 0;
}
