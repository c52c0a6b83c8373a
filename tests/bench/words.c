// The least time of a pass that only reads the given number of words: no test of them can take less. Prints nanoseconds.
#include <inttypes.h>
#include <stdio.h>
#include <stdlib.h>
#include <time.h>

static int64_t nanoseconds(void)
{
    struct timespec t;
    clock_gettime(CLOCK_MONOTONIC, &t);
    return t.tv_sec * INT64_C(1000000000) + t.tv_nsec;
}

int main(int argc, char **argv)
{
    size_t count = argc == 2 ? strtoull(argv[1], NULL, 10) : 0;
    volatile uint64_t kept;
    int64_t least = INT64_MAX;
    uint64_t *words = calloc(count, sizeof *words);

    if (count == 0 || words == NULL)
        return 2;
    for (size_t i = 0; i < count; i++)
        words[i] = i;
    for (int run = 0; run < 2000; run++) {
        uint64_t all = 0;
        int64_t start = nanoseconds();
        for (size_t i = 0; i < count; i++)
            all |= words[i];
        kept = all;
        int64_t taken = nanoseconds() - start;
        least = taken < least ? taken : least;
    }
    (void)kept;
    printf("%" PRId64 "\n", least);
    free(words);
    return 0;
}
