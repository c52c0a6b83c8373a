// A plain meter in C: the same input and output as the program `meter`, by a loop around getline.
#include <inttypes.h>
#include <stdio.h>
#include <stdlib.h>
#include <sys/types.h>

int main(void)
{
    char *line = NULL;
    size_t room = 0;
    uint64_t rate, burst, tat = 0;

    if (getline(&line, &room, stdin) < 0 || sscanf(line, "%" SCNu64 " %" SCNu64, &rate, &burst) != 2)
        return 0;
    uint64_t t = (1000000000 + rate - 1) / rate, tau = t * (burst - 1);
    while (getline(&line, &room, stdin) > 0) {
        uint64_t now = strtoull(line, NULL, 10);
        uint64_t earliest = tat > tau ? tat - tau : 0;
        if (now < earliest) {
            printf("deny %" PRIu64 "\n", earliest);
        } else {
            tat = (tat > now ? tat : now) + t;
            puts("allow");
        }
    }
    free(line);
    return 0;
}
