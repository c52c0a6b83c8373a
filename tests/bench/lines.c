// Times a program line by line. Loaded before the C library, it gives the program its standard input a line at a read, and
// at the end writes to the file LINE_TIMES, a line each, the nanoseconds from each line's read to the next read.
#include <stdio.h>
#include <stdlib.h>
#include <string.h>
#include <sys/syscall.h>
#include <time.h>
#include <unistd.h>

static char *script, *next, *end;
static long long *taken, given;
static size_t lines;

static long long now(void) {
    struct timespec t;
    clock_gettime(CLOCK_MONOTONIC, &t);
    return t.tv_sec * 1000000000LL + t.tv_nsec;
}

static void load(void) {
    size_t room = 1 << 28, size = 0;
    long got;
    script = malloc(room);
    while ((got = syscall(SYS_read, 0, script + size, room - size)) > 0) size += got;
    next = script;
    end = script + size;
    taken = malloc((size + 1) * sizeof *taken);
}

static void write_times(void) {
    FILE *to = fopen(getenv("LINE_TIMES"), "w");
    for (size_t i = 1; i < lines; i++) fprintf(to, "%lld\n", taken[i]);
    fclose(to);
}

ssize_t read(int from, void *to, size_t room) {
    if (from != 0) return syscall(SYS_read, from, to, room);
    if (!script) load();
    taken[lines++] = now() - given;
    if (next == end) {
        write_times();
        return 0;
    }
    char *feed = memchr(next, '\n', end - next);
    size_t size = feed ? (size_t)(feed + 1 - next) : (size_t)(end - next);
    if (room < size) abort();
    memcpy(to, next, size);
    next += size;
    given = now();
    return size;
}
