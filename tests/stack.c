/*
 * How much stack the calls need: each runs on a stack of its own that was filled with a pattern, and the lowest byte
 * that is another afterwards tells how deep it wrote. That is held to what include/sharing.h says of opening, of
 * rebuilding and of all other calls. Counted is from the frame of the caller on, so the caller's own bytes, less than
 * 512, are among it.
 * Without a word the schemes are a few that need the most; `stack survey NUMBER` takes as many at random besides.
 */
#define _GNU_SOURCE
#define SHARING_NO_OLD_NAMES
#include "sharing.h"
#include <stdio.h>
#include <stdlib.h>
#include <string.h>
#include <ucontext.h>

enum { STACK = 1 << 18, PATTERN = 0xa5, ROOM = 1 << 19 };
/* What the header says: less than 3 KB, at most 24 KB and at most 44 KB. */
enum { ANY = 3 * 1024 - 1, OPENING = 24 * 1024, REBUILDING = 44 * 1024 };
static uint8_t stack[STACK];
static ucontext_t here, there;
static const uint8_t *frame;

/* What the calls are lent, and what they answer. */
static uint8_t n, r, z, counts[SHARING_MAX_COUNTS], parties[SHARING_MAX_PARTIES], many, wanted;
static size_t counts_length, length, share, sent, held;
static uint8_t message[SHARING_MAX_MESSAGE], keys[ROOM], shares[ROOM], prefixes[ROOM], out[ROOM];
static size_t blocks, keys_length, out_length, start;
static sharing_key_pool pool;
static sharing_scheme scheme;
static uint64_t refusal;
#define SCHEME n, r, z, counts, counts_length

static void nothing(void) { refusal = 0; }
static void check(void) { refusal = sharing_check(SCHEME).refusal; }
static void check_tried(void) { refusal = sharing_check_tried(SCHEME).refusal; }
static void lengths(void) { refusal = sharing_lengths(SCHEME, length).refusal; }
static void lengths_padded(void) { refusal = sharing_lengths_padded(SCHEME, length).refusal; }
static void split(void) {
    refusal = sharing_split(SCHEME, message, length, keys, keys_length, shares, out_length).refusal;
}
static void split_padded(void) {
    refusal = sharing_split_padded(SCHEME, message, length, keys, keys_length, shares, out_length).refusal;
}
static void split_from_pool(void) {
    refusal = sharing_split_from_pool(&pool, SCHEME, message, length, keys, keys_length, shares, out_length).refusal;
}
static void split_padded_from_pool(void) {
    refusal = sharing_split_padded_from_pool(
        &pool, SCHEME, message, length, keys, keys_length, shares, out_length).refusal;
}
static void prefix(void) { refusal = sharing_prefix(SCHEME, length, many, shares, share).refusal; }
static void prefix_padded(void) { refusal = sharing_prefix_padded(SCHEME, many, shares, share).refusal; }
static void basis(void) { refusal = sharing_basis(SCHEME, parties, many).refusal; }
static void reconstruct(void) {
    refusal = sharing_reconstruct(SCHEME, length, parties, many, prefixes, sent, out, length).refusal;
}
static void reconstruct_range(void) {
    refusal = sharing_reconstruct_range(
        SCHEME, length, start, length - start, parties, many, prefixes, sent, out, length - start).refusal;
}
static void reconstruct_padded(void) {
    refusal = sharing_reconstruct_padded(SCHEME, parties, many, prefixes, sent, out, out_length).refusal;
}
static void rebuild(void) {
    refusal = sharing_rebuild(SCHEME, parties, many, prefixes, sent, wanted, shares, held, out, share).refusal;
}
/* The same in the default scheme. */
static void check_default(void) { refusal = sharing_check_default().refusal; }
static void check_tried_default(void) { refusal = sharing_check_tried_default().refusal; }
static void lengths_default(void) { refusal = sharing_lengths_default(length).refusal; }
static void lengths_padded_default(void) { refusal = sharing_lengths_padded_default(length).refusal; }
static void split_default(void) {
    refusal = sharing_split_default(message, length, keys, keys_length, shares, out_length).refusal;
}
static void split_padded_default(void) {
    refusal = sharing_split_padded_default(message, length, keys, keys_length, shares, out_length).refusal;
}
static void split_from_pool_default(void) {
    refusal = sharing_split_from_pool_default(&pool, message, length, keys, keys_length, shares, out_length).refusal;
}
static void split_padded_from_pool_default(void) {
    refusal = sharing_split_padded_from_pool_default(
        &pool, message, length, keys, keys_length, shares, out_length).refusal;
}
static void prefix_default(void) { refusal = sharing_prefix_default(length, many, shares, share).refusal; }
static void prefix_padded_default(void) { refusal = sharing_prefix_padded_default(many, shares, share).refusal; }
static void basis_default(void) { refusal = sharing_basis_default(parties, many).refusal; }
static void reconstruct_default(void) {
    refusal = sharing_reconstruct_default(length, parties, many, prefixes, sent, out, length).refusal;
}
static void reconstruct_range_default(void) {
    refusal = sharing_reconstruct_range_default(
        length, start, length - start, parties, many, prefixes, sent, out, length - start).refusal;
}
static void reconstruct_padded_default(void) {
    refusal = sharing_reconstruct_padded_default(parties, many, prefixes, sent, out, out_length).refusal;
}
static void rebuild_default(void) {
    refusal = sharing_rebuild_default(parties, many, prefixes, sent, wanted, shares, held, out, share).refusal;
}

static void gf256(void) {
    refusal = sharing_gf256_add(3, 5) + sharing_gf256_mul(3, 5) + sharing_gf256_mul_by_shifting(3, 5) +
              sharing_gf256_inverse(3).inverse;
    refusal = 0;
}
static void archive_write(void) {
    const size_t two[] = {3, 4};
    refusal = sharing_archive_write(message, 7, two, 2, out, 17).refusal;
}
static void archive_count(void) { refusal = sharing_archive_count(out, 17).refusal; }
static void archive_entry(void) { refusal = sharing_archive_entry(out, 17, 1).refusal; }

/* A call, its form in the default scheme where it has one, and what the header allows them. */
static struct measure {
    const char *name;
    void (*call)(void), (*by_default)(void);
    size_t allowed, least, most;
} measures[] = {
    {"nothing", nothing, NULL, ANY, 0, 0},
    {"check", check, check_default, ANY, 0, 0},
    {"check_tried", check_tried, check_tried_default, ANY, 0, 0},
    {"lengths", lengths, lengths_default, ANY, 0, 0},
    {"lengths_padded", lengths_padded, lengths_padded_default, ANY, 0, 0},
    {"split", split, split_default, ANY, 0, 0},
    {"split_padded", split_padded, split_padded_default, ANY, 0, 0},
    {"split_from_pool", split_from_pool, split_from_pool_default, ANY, 0, 0},
    {"split_padded_from_pool", split_padded_from_pool, split_padded_from_pool_default, ANY, 0, 0},
    {"prefix", prefix, prefix_default, ANY, 0, 0},
    {"prefix_padded", prefix_padded, prefix_padded_default, ANY, 0, 0},
    {"basis", basis, basis_default, ANY, 0, 0},
    {"reconstruct", reconstruct, reconstruct_default, OPENING, 0, 0},
    {"reconstruct_range", reconstruct_range, reconstruct_range_default, OPENING, 0, 0},
    {"reconstruct_padded", reconstruct_padded, reconstruct_padded_default, OPENING, 0, 0},
    {"rebuild", rebuild, rebuild_default, REBUILDING, 0, 0},
    {"gf256", gf256, NULL, ANY, 0, 0},
    {"archive_write", archive_write, NULL, ANY, 0, 0},
    {"archive_count", archive_count, NULL, ANY, 0, 0},
    {"archive_entry", archive_entry, NULL, ANY, 0, 0},
};

static void (*running)(void);
static void enter(void) {
    frame = __builtin_frame_address(0);
    running();
}

/* Runs it on the filled stack, and answers how deep it wrote. */
static size_t depth(void (*call)(void)) {
    size_t untouched = 0;
    memset(stack, PATTERN, STACK);
    running = call;
    getcontext(&there);
    there.uc_stack.ss_sp = stack;
    there.uc_stack.ss_size = STACK;
    there.uc_link = &here;
    makecontext(&there, enter, 0);
    swapcontext(&here, &there);
    while (stack[untouched] == PATTERN) untouched++;
    return (size_t)(frame - (stack + untouched));
}

static void measure_one(struct measure *m, void (*call)(void), uint64_t expected) {
    size_t bytes = depth(call);
    if (refusal != expected) {
        printf("%s: refusal %d, expected was %d\n", m->name, (int)refusal, (int)expected);
        exit(1);
    }
    if (bytes > m->most) m->most = bytes;
    if (m->least == 0 || bytes < m->least) m->least = bytes;
}

static int is_default(void) {
    static const uint8_t numbers[] = SHARING_DEFAULT_COUNTS;
    return n == SHARING_DEFAULT_N && r == SHARING_DEFAULT_R && z == SHARING_DEFAULT_Z &&
           counts_length == sizeof numbers && memcmp(counts, numbers, sizeof numbers) == 0;
}

static void measure(void (*call)(void), uint64_t expected) {
    struct measure *m = measures;
    while (m->call != call) m++;
    measure_one(m, call, expected);
    if (m->by_default && is_default()) {
        /* The call before took all keys of the pool. */
        pool.position = 0;
        measure_one(m, m->by_default, expected);
    }
}

/* The first `each` bytes of the share of every party, one after another. */
static void send(size_t each) {
    for (size_t i = 0; i < many; i++) memcpy(prefixes + i * each, shares + (parties[i] - 1) * share, each);
    sent = many * each;
}

/* All parties but the first ones: their numbers are the greatest. */
static void take(size_t number) {
    many = (uint8_t)number;
    for (size_t i = 0; i < many; i++) parties[i] = (uint8_t)(n - many + 1 + i);
}

static void rebuilding(void) {
    wanted = 1;
    for (size_t number = (size_t)n - r; number <= n; number += r ? r : 1) {
        take(number);
        for (held = 0; held <= share; held += share) {
            send(share);
            measure(rebuild, 0);
            if (number == (size_t)n - r) continue;
            /* One that is wrong, the last, for which every other is tried, and two. */
            prefixes[sent - 1] ^= 1;
            measure(rebuild, SHARING_REFUSED_DISAGREEING);
            prefixes[0] ^= 1;
            measure(rebuild, SHARING_REFUSED_DISAGREEING);
        }
    }
}

static void opening(int padded) {
    for (size_t i = 0; i < counts_length; i++) {
        take(counts[i]);
        measure(basis, 0);
        send(scheme.block / (uint64_t)(counts[i] - z) * blocks);
        measure(padded ? prefix_padded : prefix, 0);
        if (padded) {
            out_length = blocks * scheme.block;
            measure(reconstruct_padded, 0);
        } else {
            measure(reconstruct, 0);
            for (start = 0; start <= length; start += length / 3 + 1) measure(reconstruct_range, 0);
        }
    }
}

static void message_of(size_t bytes) {
    length = bytes;
    for (int padded = 0; padded < 2; padded++) {
        blocks = padded ? length / scheme.block + 1 : (length + scheme.block - 1) / scheme.block;
        share = blocks * scheme.rows;
        keys_length = share * z;
        out_length = share * n;
        pool.length = keys_length;
        pool.position = 0;
        measure(padded ? lengths_padded : lengths, 0);
        measure(padded ? split_padded_from_pool : split_from_pool, 0);
        measure(padded ? split_padded : split, 0);
        opening(padded);
        rebuilding();
    }
}

static void scheme_of(size_t bytes) {
    measure(check, 0);
    measure(check_tried, 0);
    message_of(bytes);
}

static int accepted(void) {
    scheme = sharing_check(SCHEME);
    return scheme.refusal == 0;
}

static void named(uint8_t parties_in_all, uint8_t absent, uint8_t colluding, const char *numbers) {
    n = parties_in_all;
    r = absent;
    z = colluding;
    counts_length = strlen(numbers);
    memcpy(counts, numbers, counts_length);
    if (!accepted()) exit(1);
    scheme_of(1);
    scheme_of(SHARING_MAX_MESSAGE);
}

/* Counts that fall by one or two, or by more, from near n: any accepted scheme can come. */
static void random_scheme(void) {
    do {
        n = (uint8_t)(2 + rand() % 15);
        z = (uint8_t)(1 + rand() % (n - 1));
        counts_length = 0;
        for (int d = n - rand() % 2; d > z && counts_length < SHARING_MAX_COUNTS; d -= 1 + rand() % 3 / 2 * (rand() % 4))
            counts[counts_length++] = (uint8_t)d;
        if (counts_length) counts_length = 1 + (size_t)rand() % counts_length;
        r = counts_length ? (uint8_t)(n - counts[counts_length - 1]) : 0;
    } while (!accepted());
}

int main(int argc, char **argv) {
    int failed = 0;
    for (size_t i = 0; i < ROOM; i++) keys[i] = (uint8_t)rand();
    for (size_t i = 0; i < SHARING_MAX_MESSAGE; i++) message[i] = (uint8_t)rand();
    measure(nothing, 0);
    measure(gf256, 0);
    measure(archive_write, 0);
    measure(archive_count, 0);
    measure(archive_entry, 0);
    named(SHARING_DEFAULT_N, SHARING_DEFAULT_R, SHARING_DEFAULT_Z, "\5\4\3");
    named(9, 7, 1, "\11\10\7\6\5\4\3\2");
    named(16, 1, 1, "\20\17");
    named(16, 6, 9, "\20\17\16\15\14\13\12");
    if (argc == 3 && strcmp(argv[1], "survey") == 0)
        for (long left = atol(argv[2]); left > 0; left--) {
            random_scheme();
            scheme_of(1 + (size_t)rand() % (rand() % 8 ? 2000 : SHARING_MAX_MESSAGE));
        }
    for (size_t i = 0; i < sizeof measures / sizeof *measures; i++) {
        printf("%-22s %6d to %6d bytes\n", measures[i].name, (int)measures[i].least, (int)measures[i].most);
        if (measures[i].most > measures[i].allowed || measures[i].allowed > SHARING_STACK) {
            printf("include/sharing.h says that it needs at most %d bytes of stack, and none more than %d\n",
                (int)measures[i].allowed, SHARING_STACK);
            failed = 1;
        }
    }
    return failed;
}
