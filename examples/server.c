/* A server loop over libnultiway.a: reads keys, one a line, and answers each with `allow`, with `deny TIME`, the reading from
 * which it would be allowed, or with `no N` where its check is refused; a line that is no number counts as key 0. It ticks
 * once a period. It saves its state on SIGUSR1, and at the end of its input or on SIGTERM or SIGINT, when it ends: with status
 * 1 where a line was too long, or reading, writing or that save failed. Answers that nobody reads hold it up; a second SIGTERM
 * or SIGINT ends it then, without a save. It takes the state up again when it starts.
 *
 *     gcc -I include examples/server.c target/staticlib/libnultiway.a -o target/server && target/server STATE */
#define _POSIX_C_SOURCE 200809L
#include "nultiway.h"
#include <errno.h>
#include <inttypes.h>
#include <poll.h>
#include <signal.h>
#include <stdio.h>
#include <stdlib.h>
#include <string.h>
#include <time.h>
#include <unistd.h>

enum { TABLE_SIZE = 1024, HOT_SET_SIZE = 64, BATCH = 256, CLUSTER_SIZE = 1 };
static const uint64_t SECOND = 1000000000, PERIOD = 200000000;

static uint64_t limiter[NULTIWAY_LIMITER_WORDS], peers[NULTIWAY_PEERS_WORDS];
static uint64_t keys[NULTIWAY_KEYS_SIZE(TABLE_SIZE)], hot[NULTIWAY_HOT_SIZE(HOT_SET_SIZE)];
static uint64_t shadows[NULTIWAY_SHADOWS_SIZE(TABLE_SIZE)], peer_table[NULTIWAY_PEER_TABLE_SIZE];
static uint64_t snapshot_keys[NULTIWAY_SNAPSHOT_KEYS_SIZE], contested[NULTIWAY_CONTESTED_SIZE];
static uint8_t image[NULTIWAY_LARGEST_IMAGE];
static uint64_t clock_start;
static volatile sig_atomic_t save_wanted, end_wanted;

#define LENT(buffer) buffer, sizeof(buffer) / sizeof((buffer)[0])
#define LIMITER LENT(limiter), LENT(keys), LENT(hot), LENT(shadows)
#define PEERS LENT(peers), LENT(peer_table), LENT(snapshot_keys), LENT(contested)

static void on_signal(int number) {
    if (number == SIGUSR1) save_wanted = 1;
    else end_wanted = 1;
}

static void catch_signals(void) {
    struct sigaction caught = {.sa_handler = on_signal, .sa_flags = SA_RESTART}, passed = {.sa_handler = SIG_IGN};
    sigaction(SIGUSR1, &caught, NULL);
    caught.sa_flags |= SA_RESETHAND; /* a second one ends the server at once */
    sigaction(SIGTERM, &caught, NULL);
    sigaction(SIGINT, &caught, NULL);
    sigaction(SIGPIPE, &passed, NULL); /* a write then fails, and the state is saved */
}

static uint64_t nanos_of(clockid_t clock) {
    struct timespec t;
    clock_gettime(clock, &t);
    return (uint64_t)t.tv_sec * SECOND + (uint64_t)t.tv_nsec;
}

/* Starts the readings at the time of day, or at the state's last tick where that is later. */
static void start_clock(void) {
    uint64_t last = limiter[NULTIWAY_LAST_TICK], today = nanos_of(CLOCK_REALTIME);
    clock_start = (last < today ? today : last) - nanos_of(CLOCK_MONOTONIC);
}

/* A reading: the monotonic clock goes on from the start, so readings never go back. */
static uint64_t now(void) { return clock_start + nanos_of(CLOCK_MONOTONIC); }

static void must(const char *what, uint8_t no) {
    if (no != NULTIWAY_ANSWERED) {
        fprintf(stderr, "server: %s: %s (question %d)\n", what, nultiway_question_text(no), no);
        exit(1);
    }
}

/* Whether `holds`; where not, errno's text is told. */
static bool worked(bool holds, const char *what) {
    if (!holds) perror(what);
    return holds;
}

/* The state in the file, or a new one where there is no file: one request in ten seconds, two at once. */
static void resume(const char *path) {
    FILE *file = fopen(path, "rb");
    if (file) {
        size_t size = fread(image, 1, sizeof image, file);
        if (!worked(!ferror(file), path)) exit(1);
        fclose(file);
        must(path, nultiway_load(image, size, LIMITER, PEERS));
        return;
    }
    if (!worked(errno == ENOENT, path)) exit(1);
    must("new", nultiway_limiter_new(LIMITER, 0.1, 2, 1.0, 0.5, 10 * SECOND, HOT_SET_SIZE, TABLE_SIZE, SECOND, TABLE_SIZE));
    must("new", nultiway_peers_new(PEERS));
}

static void tick(uint64_t time) { must("tick", nultiway_tick_with_shares(LIMITER, PEERS, time, CLUSTER_SIZE)); }

/* Writes the image beside the file and renames it, so that the file is always a whole image. The tick before it is for the
 * image to have the latest reading, from which a resumed clock goes on. */
static bool save(const char *path) {
    uint64_t size[NULTIWAY_SAVE_ANSWER];
    char beside[4096];
    tick(now());
    must("save", nultiway_save(LIMITER, PEERS, LENT(image), LENT(size)));
    int length = snprintf(beside, sizeof beside, "%s.new", path);
    FILE *file = length < (int)sizeof beside ? fopen(beside, "wb") : NULL;
    bool written = file && fwrite(image, 1, size[0], file) == size[0];
    if (file && fclose(file) != 0) written = false;
    return worked(written && rename(beside, path) == 0, path);
}

/* The key of a line, which the text goes on behind. */
static uint64_t key_of(char *line, char *end) {
    char *rest;
    *end = 0;
    errno = 0;
    uint64_t key = strtoull(line, &rest, 10);
    return *line >= '0' && *line <= '9' && rest == end && errno == 0 ? key : 0;
}

/* Answers whole lines of the text in one call, as many as a batch has, and tells how many bytes they take. */
static size_t answer(char *text, size_t held) {
    uint64_t list[2 * BATCH], out[3 * BATCH], time = now();
    size_t count = 0, from = 0;
    for (char *end; count < BATCH && (end = memchr(text + from, '\n', held - from)); from = (size_t)(end - text) + 1) {
        list[2 * count] = key_of(text + from, end);
        list[2 * count++ + 1] = time;
    }
    must("check_each", nultiway_check_each(LIMITER, LENT(list), count, CLUSTER_SIZE, LENT(out)));
    for (const uint64_t *one = out; one < out + 3 * count; one += 3) {
        if (one[0] != NULTIWAY_ANSWERED) printf("no %" PRIu64 "\n", one[0]);
        else if (one[1]) printf("deny %" PRIu64 "\n", one[2]);
        else printf("allow\n");
    }
    return from;
}

/* Reads what there is behind what is held, answers the whole lines and keeps the rest; whether there may be more to come. At
 * the end of the input the last line needs no line feed. */
static bool serve(char *text, size_t size, size_t *held, bool *failed) {
    ssize_t got = read(STDIN_FILENO, text + *held, size - 1 - *held);
    if (got > 0) *held += (size_t)got;
    if (got == 0 && *held > 0) text[(*held)++] = '\n';
    for (size_t taken; (taken = answer(text, *held)) > 0; *held -= taken) memmove(text, text + taken, *held - taken);
    bool fits = *held < size - 1;
    if (!fits) fprintf(stderr, "server: a line is too long\n");
    *failed = !worked(got >= 0, "standard input") || !worked(fflush(stdout) == 0 && !ferror(stdout), "standard output") || !fits;
    return got > 0 && !*failed;
}

int main(int argc, char **argv) {
    static char text[4096];
    size_t held = 0;
    bool more = true, failed = false;
    if (argc != 2) return fprintf(stderr, "usage: server STATE\n"), 2;
    if (nultiway_version() != NULTIWAY_VERSION) return fprintf(stderr, "server: the archive is of another version\n"), 2;
    resume(argv[1]);
    start_clock();
    catch_signals();
    for (uint64_t ticked = now(); more && !end_wanted;) {
        struct pollfd input = {STDIN_FILENO, POLLIN, 0};
        uint64_t passed = now() - ticked;
        int ready = poll(&input, 1, passed < PERIOD ? (int)((PERIOD - passed) / 1000000) + 1 : 0);
        if (save_wanted) save_wanted = 0, save(argv[1]);
        if (now() - ticked >= PERIOD) tick(ticked = now());
        if (ready > 0) more = serve(text, sizeof text, &held, &failed);
    }
    return save(argv[1]) && !failed ? 0 : 1;
}
