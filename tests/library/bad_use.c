/* Calls of every function with buffers of any length and words of any kind: bad_use ROUNDS SEED [heap].
 *
 * Each buffer ends where a page begins that can't be touched, or, with `heap`, where its block ends, for valgrind. A call must
 * answer a number from 0 to 16, and 1 where its answer is too short; where that is not 0 all buffers must be as they were, and
 * otherwise all that are not lent to be written. A buffer of no length may be NULL here, though the header does not allow it;
 * a bool is 0 or 1, as in every C program.
 * A state that calls have made is kept, so that many calls find a valid one; others find it spoiled. */
#define _GNU_SOURCE
#include "nultiway.h"
#include <stdio.h>
#include <stdlib.h>
#include <string.h>
#include <sys/mman.h>
#include <unistd.h>

enum { MOST_LENT = 10, MOST_NUMBERS = 12, TABLE_SIZE = 8, HOT_SET_SIZE = 3, KINDS = 21, IMAGE_ROOM = 32768 };

struct lent {
    void *at;
    size_t len;
};

enum holds { WORDS, REALS, BYTES, FLAGS };

struct call {
    const char *name;
    uint8_t (*call)(struct lent *, const uint64_t *);
    size_t answer; /* the words that its answer needs */
    int slices;
    struct {
        const char *name;
        enum holds holds;
        int is_mut;
    } slice[MOST_LENT];
    int counted;
    const char *number[MOST_NUMBERS];
};

static double real(uint64_t bits) {
    double x;
    memcpy(&x, &bits, sizeof x);
    return x;
}

#include "calls.h"

/* The buffers by name: how many elements a call needs, and what is kept of them between calls. */
static struct kind {
    const char *name;
    size_t need;
    int is_state;
    uint64_t *kept;
    uint8_t *room;
    size_t pages;
} kinds[KINDS] = {
    {"limiter", NULTIWAY_LIMITER_WORDS, 1, 0, 0, 0},
    {"keys", NULTIWAY_KEYS_SIZE(TABLE_SIZE), 1, 0, 0, 0},
    {"hot", NULTIWAY_HOT_SIZE(HOT_SET_SIZE), 1, 0, 0, 0},
    {"shadows", NULTIWAY_SHADOWS_SIZE(TABLE_SIZE), 1, 0, 0, 0},
    {"peers", NULTIWAY_PEERS_WORDS, 1, 0, 0, 0},
    {"peer_table", NULTIWAY_PEER_TABLE_SIZE, 1, 0, 0, 0},
    {"snapshot_keys", NULTIWAY_SNAPSHOT_KEYS_SIZE, 1, 0, 0, 0},
    {"contested", NULTIWAY_CONTESTED_SIZE, 1, 0, 0, 0},
    {"gcra", NULTIWAY_GCRA_WORDS, 1, 0, 0, 0},
    {"hot_set", NULTIWAY_HOT_SET_WORDS, 1, 0, 0, 0},
    {"entries", NULTIWAY_HOT_SIZE(HOT_SET_SIZE), 1, 0, 0, 0},
    {"demand", NULTIWAY_DEMAND_WORDS, 1, 0, 0, 0},
    {"image", IMAGE_ROOM / 8, 1, 0, 0, 0},
    {"report", 195, 0, 0, 0, 0},
    {"list", 12, 0, 0, 0, 0},
    {"demands", 12, 0, 0, 0, 0},
    {"thresholds", 12, 0, 0, 0, 0},
    {"elsewhere", 12, 0, 0, 0, 0},
    {"answer", 9, 0, 0, 0, 0},
    {"out", 40, 0, 0, 0, 0},
    {"words", 40, 0, 0, 0, 0}, /* any other */
};

static uint64_t seed;
static int on_heap;
static size_t image_size;
static unsigned long answers[17];

/* splitmix64 */
static uint64_t any(void) {
    uint64_t z = seed += 0x9e3779b97f4a7c15;
    z = (z ^ (z >> 30)) * 0xbf58476d1ce4e5b9;
    z = (z ^ (z >> 27)) * 0x94d049bb133111eb;
    return z ^ (z >> 31);
}

static uint64_t below(uint64_t n) { return any() % n; }

static uint64_t word(void) {
    static const uint64_t edges[] = {0, 1, 2, 3, 64, 65, 4096, 4097, 65535, 65536, 0xffffffff, 0x100000000, 0x3fe0000000000000,
                                     0x3ff0000000000000, 0x7ff0000000000000, 0x7ff8000000000000, 0x8000000000000000,
                                     0xffffffffffffffff};
    switch (below(4)) {
    case 0: return any();
    case 1: return any() >> below(64);
    default: return edges[below(sizeof edges / sizeof *edges)];
    }
}

static struct kind *kind_of(const char *name) {
    int at = 0;
    while (at < KINDS - 1 && strcmp(kinds[at].name, name) != 0) at++;
    return &kinds[at];
}

/* A number by its name: one that passes, or now and then any. */
static uint64_t number(const char *name) {
    const uint64_t half = 0x3fe0000000000000;
    static uint64_t sender;
    if (below(12) == 0) return word();
    if (strcmp(name, "from") == 0) return sender = below(40);
    if (strcmp(name, "origin") == 0) return sender;
    if (strcmp(name, "hold") == 0 || strcmp(name, "max_age") == 0) return below(16) ? (uint64_t)1 << 60 : below(9);
    if (strcmp(name, "attempts") == 0 && below(8) == 0) return (uint64_t)1 << 63;
    if (strcmp(name, "demand_rate") == 0 || strcmp(name, "threshold") == 0) return half + (below(4) << 52);
    if (strcmp(name, "limit") == 0 || strcmp(name, "own") == 0 || strcmp(name, "others") == 0) return half + (below(4) << 52);
    if (strstr(name, "rate") || strcmp(name, "alpha") == 0) return half + (below(3) << 52) * 4 * !strcmp(name, "rate");
    if (strstr(name, "factor") || strcmp(name, "cap") == 0) return half;
    if (strstr(name, "burst")) return 1 + below(3);
    if (strcmp(name, "hot_set_size") == 0 || strcmp(name, "max_size") == 0) return HOT_SET_SIZE;
    if (strcmp(name, "max_tracked_keys") == 0) return TABLE_SIZE - 1;
    if (strcmp(name, "table_size") == 0) return TABLE_SIZE;
    if (strcmp(name, "cluster_size") == 0 || strcmp(name, "width") == 0) return 1 + below(3);
    if (strcmp(name, "reading") == 0) return 1000000000 * below(1000);
    if (strcmp(name, "interval") == 0) return 1 + below(1000000000);
    return below(9);
}

static size_t bytes_of(size_t len, enum holds holds) { return holds == WORDS || holds == REALS ? 8 * len : len; }

/* A demand or a threshold: one that passes, or now and then any. */
static double level(void) { return below(12) ? (double)below(6) : real(word()); }

/* A buffer of so many bytes that ends where its block or its page ends. */
static uint8_t *room_for(struct kind *kind, size_t bytes) {
    size_t page = (size_t)sysconf(_SC_PAGESIZE);
    if (on_heap) {
        free(kind->room);
        return kind->room = malloc(bytes ? bytes : 1);
    }
    if (!kind->room) {
        kind->pages = (NULTIWAY_CONTESTED_SIZE + 64) * 8 / page + 2;
        kind->room = mmap(0, (kind->pages + 1) * page, PROT_READ | PROT_WRITE, MAP_PRIVATE | MAP_ANONYMOUS, -1, 0);
        if (kind->room == MAP_FAILED || mprotect(kind->room + kind->pages * page, page, PROT_NONE) != 0) exit(2);
    }
    return kind->room + kind->pages * page - bytes;
}

/* What is lent: mostly as much as is needed and what was kept; else another length, or words of any kind. */
static size_t fill(const struct call *call, struct kind *kind, enum holds holds, uint8_t **at, int spoils) {
    size_t need = strcmp(kind->name, "image") == 0 ? image_size : kind->need, len;
    int is_wide = bytes_of(1, holds) == 8;
    if (strcmp(kind->name, "answer") == 0) need = call->answer;
    if (holds == BYTES && strcmp(kind->name, "out") == 0) need = IMAGE_ROOM;
    len = need + below(3) * (below(4) == 0);
    if (spoils && below(6) == 0) len = below(4) == 0 ? 0 : need > 0 && below(2) ? need - 1 : below(need + 2);
    size_t bytes = bytes_of(len, holds), kept = bytes_of(need, holds) < bytes ? bytes_of(need, holds) : bytes;
    *at = room_for(kind, bytes);
    for (size_t i = 0; i < bytes; i++) (*at)[i] = holds == FLAGS ? (uint8_t)below(2) : (uint8_t)(i * 37 + 11);
    if (kind->is_state) memcpy(*at, kind->kept, kept);
    for (size_t i = 0; i < len && holds == REALS; i++) memcpy(*at + 8 * i, &(double){level()}, 8);
    if (!kind->is_state && holds == WORDS)
        for (size_t i = 0; i < len; i++) {
            uint64_t usual = strcmp(kind->name, "report") == 0 && i % 3 == 1 ? 0x3f800000 + below(6) : below(i % 3 == 2 ? 2 : 6);
            memcpy(*at + 8 * i, &(uint64_t){below(kind->need) ? usual : word()}, 8);
        }
    if (spoils && bytes >= 8 && (below(6) == 0 || len == 0)) {
        size_t place = below(below(2) ? bytes / 8 : bytes / 8 < 64 ? bytes / 8 : 64) * 8;
        if (is_wide) memcpy(*at + place, &(uint64_t){word()}, 8);
        else if (strcmp(kind->name, "image") == 0) (*at)[place + below(8)] = (uint8_t)any();
    }
    return len;
}

static void fail(const struct call *call, const char *what, int no) {
    printf("bad use: %s answers %d: %s\n", call->name, no, what);
    exit(1);
}

/* Keeps what a call left, where it was lent a whole state. */
static void keep(const struct call *call, struct lent *lent) {
    for (int i = 0; i < call->slices; i++) {
        struct kind *kind = kind_of(call->slice[i].name);
        if (kind->is_state && call->slice[i].is_mut && lent[i].len >= kind->need)
            memcpy(kind->kept, lent[i].at, kind->need * 8);
    }
}

static void turn(const struct call *call) {
    struct lent lent[MOST_LENT];
    static uint8_t before[MOST_LENT][(NULTIWAY_CONTESTED_SIZE + 64) * 8];
    uint64_t numbers[MOST_NUMBERS];
    int spoils = below(2) == 0;
    for (int i = 0; i < call->slices; i++) {
        uint8_t *at;
        lent[i].len = fill(call, kind_of(call->slice[i].name), call->slice[i].holds, &at, spoils);
        lent[i].at = lent[i].len == 0 && below(2) ? NULL : at;
        memcpy(before[i], at, bytes_of(lent[i].len, call->slice[i].holds));
    }
    for (int i = 0; i < call->counted; i++) numbers[i] = number(call->number[i]);
    uint8_t no = call->call(lent, numbers);
    if (no > 16) fail(call, "no question has this number", no);
    answers[no]++;
    for (int i = 0; i < call->slices; i++) {
        if (strcmp(call->slice[i].name, "answer") == 0 && lent[i].len < call->answer && no != 1)
            fail(call, "its answer is too short", no);
        int same = lent[i].len == 0 || memcmp(before[i], lent[i].at, bytes_of(lent[i].len, call->slice[i].holds)) == 0;
        if (!same && no != 0) fail(call, "a refused call has changed a buffer", no);
        if (!same && !call->slice[i].is_mut) fail(call, "a buffer that is only read has changed", no);
    }
    if (no == 0 && !spoils) keep(call, lent);
    if (no == 0 && strcmp(call->name, "nultiway_save") == 0) {
        memcpy(&image_size, lent[9].at, sizeof image_size);
        memcpy(kind_of("image")->kept, lent[8].at, image_size);
    }
}

int main(int argc, char **argv) {
    unsigned long rounds = argc > 1 ? strtoul(argv[1], 0, 10) : 100000;
    size_t functions = sizeof calls / sizeof *calls;
    seed = argc > 2 ? strtoull(argv[2], 0, 10) : 1;
    on_heap = argc > 3 && strcmp(argv[3], "heap") == 0;
    for (int i = 0; i < KINDS; i++) kinds[i].kept = calloc(kinds[i].need + 64, 8);
    for (unsigned long i = 0; i < rounds; i++) turn(&calls[i < 3 * functions ? i % functions : below(functions)]);
    printf("bad use: %lu calls of %zu functions answered:", rounds, functions);
    for (int i = 0; i < 17; i++) printf(" %d: %lu%s", i, answers[i], i < 16 ? "," : "\n");
    return 0;
}
