/* Plans the job files of two crews, each alone, then pools their gear and plans the pooled job: how much earlier are
 * both done than the later of the two alone? Usage: pool FIRST SECOND */
#include "../include/ruhkevois.h"

#include <stdio.h>

struct job {
    uint8_t file[RUHKEVOIS_FILE_BYTES + 1]; /* one byte more, so that a longer file is refused and not cut */
    size_t length;
};

/* Reads the file of a job; 1 where it cannot be read. */
static int load(const char *name, struct job *job) {
    FILE *input = fopen(name, "rb");
    if (input == NULL) {
        return 1;
    }
    job->length = fread(job->file, 1, sizeof job->file, input);
    fclose(input);
    return 0;
}

/* Plans the job and prints its end and the peak of its first pool; 1 where there is no day. */
static int print_day(const char *what, const struct job *job, unsigned *end) {
    uint8_t plan[RUHKEVOIS_PLAN_BYTES];
    uint32_t peaks[RUHKEVOIS_POOLS];
    uint64_t answer = ruhkevois_plan(job->file, job->length, plan, sizeof plan, peaks);
    if (RUHKEVOIS_KIND(answer) == RUHKEVOIS_REFUSED) {
        printf("%s: refused %u\n", what, RUHKEVOIS_NUMBER(answer));
        return 1;
    }
    *end = RUHKEVOIS_END(answer);
    printf("%s: end %u, peak %u\n", what, *end, (unsigned)peaks[0]);
    return 0;
}

int main(int argc, char **argv) {
    struct job first, second, pooled;
    unsigned first_end, second_end, pooled_end;
    if (argc != 3 || load(argv[1], &first) != 0 || load(argv[2], &second) != 0) {
        fprintf(stderr, "usage: pool FIRST SECOND, job files that can be read\n");
        return 2;
    }
    int first_alone = print_day("first alone", &first, &first_end);
    int second_alone = print_day("second alone", &second, &second_end);

    uint64_t answer = ruhkevois_pool(first.file, first.length, second.file, second.length, pooled.file,
        sizeof pooled.file);
    if (RUHKEVOIS_KIND(answer) == RUHKEVOIS_REFUSED) {
        printf("pooled: refused %u\n", RUHKEVOIS_NUMBER(answer));
        return 1;
    }
    pooled.length = RUHKEVOIS_END(answer);
    if (print_day("pooled", &pooled, &pooled_end) != 0) {
        return 1;
    }
    if (first_alone == 0 && second_alone == 0) {
        unsigned later = first_end < second_end ? second_end : first_end;
        printf("minutes saved: %d\n", (int)later - (int)pooled_end);
    }
    return 0;
}
