/*
 * Calls everything that include/sharing.h declares and compares the answers with known ones: a
 * declaration that does not fit the library, or a field out of its order, shows here.
 */
#define SHARING_NO_OLD_NAMES
#include "sharing.h"
#include <stdio.h>
#include <string.h>

static int failures = 0;

static void expect(int holds, const char *what, int line) {
    if (!holds) {
        printf("tests/header.c, line %d: %s does not hold\n", line, what);
        failures++;
    }
}
#define EXPECT(condition) expect(condition, #condition, __LINE__)

/*
 * Five parties, one may be absent, two may collude: n, r and z all differ, and with r and z exchanged
 * every call refuses the scheme. A block has 6 bytes and 3 rows. The shares and the weights are those
 * of the other implementation, rust/comparison/src/reference.rs.
 */
static const uint8_t counts[] = {5, 4};
static const uint8_t message[] = {5, 7, 1, 255, 16}, keys[] = {9, 4, 2, 6, 200, 33};
static const uint8_t shares[] = {14, 235, 232, 61, 95, 142, 40, 214, 174, 137, 31, 92, 226, 173, 124};
static const uint8_t padded_shares[] = {14, 107, 104, 61, 135, 226, 40, 142, 111, 137, 48, 17, 226, 2, 95};
static const uint8_t four[] = {1, 2, 4, 5};

static void sizes(void) {
    EXPECT(sizeof(sharing_scheme) == 24 && sizeof(sharing_answer) == 16 && sizeof(sharing_basis_answer) == 264);
    EXPECT(sizeof(sharing_padded_answer) == 24 && sizeof(sharing_archive_entry_answer) == 24);
    EXPECT(sizeof(sharing_tried_scheme) == 32);
    EXPECT(sizeof ((sharing_basis_answer *)0)->weights == 256 && sizeof(sharing_key_pool) == 16);
    EXPECT(sizeof(sharing_gf256_inverse_answer) == 16 && sizeof(sharing_rebuild_answer) == 24);
    EXPECT(sizeof(sharing_lengths_answer) == 48);
}

/* The names of the refusals, in the table's order: the numbers are those that the calls are expected to answer below. */
static void names_of_refusals(void) {
    const int named[] = {
        SHARING_ACCEPTED, SHARING_REFUSED_PARTIES, SHARING_REFUSED_ABSENT_OR_COLLUDING, SHARING_REFUSED_COUNTS,
        SHARING_REFUSED_BLOCK_LENGTH, SHARING_REFUSED_MESSAGE_LENGTH, SHARING_REFUSED_READERS,
        SHARING_REFUSED_PARTY_NUMBERS, SHARING_REFUSED_KEYS_LENGTH, SHARING_REFUSED_SHARE_LENGTH,
        SHARING_REFUSED_OUT_LENGTH, SHARING_REFUSED_PADDING, SHARING_REFUSED_ARCHIVE_COUNT,
        SHARING_REFUSED_ARCHIVE_ENTRIES, SHARING_REFUSED_ENTRY_NUMBER, SHARING_REFUSED_RANGE, SHARING_REFUSED_POOL,
        SHARING_REFUSED_TOO_FEW_SHARES, SHARING_REFUSED_DISAGREEING,
    };
    EXPECT(sizeof named / sizeof *named == 19);
    for (int number = 0; number <= 18; number++) EXPECT(named[number] == number);
}

static void arithmetic(void) {
    EXPECT(sharing_gf256_add(0x57, 0x83) == 0xd4);
    EXPECT(sharing_gf256_mul(0x57, 0x83) == 0xc1);
    EXPECT(sharing_gf256_mul_by_shifting(0x57, 0x13) == 0xfe);
    sharing_gf256_inverse_answer a = sharing_gf256_inverse(2);
    EXPECT(a.exists == 1 && a.inverse == 0x8d);
    a = sharing_gf256_inverse(0);
    EXPECT(a.exists == 0 && a.inverse == 0);
}

static void schemes(void) {
    const uint8_t long_block[] = {9, 8, 7, 6}, too_long[] = {10, 9, 8, 6};
    sharing_scheme s = sharing_check(9, 3, 1, long_block, sizeof long_block);
    EXPECT(s.refusal == 0 && s.block == 840 && s.rows == 168);
    s = sharing_check(10, 4, 1, too_long, sizeof too_long);
    EXPECT(s.refusal == 4 && s.block == 0 && s.rows == 0);
    s = sharing_check(5, 1, 2, counts, 2);
    EXPECT(s.refusal == 0 && s.block == 6 && s.rows == 3);
    s = sharing_check_default();
    EXPECT(s.refusal == 0 && s.block == 6 && s.rows == 6);
    sharing_tried_scheme t = sharing_check_tried(9, 3, 1, long_block, sizeof long_block);
    EXPECT(t.refusal == 0 && t.block == 840 && t.rows == 168 && t.tried == 105);
    t = sharing_check_tried(10, 4, 1, too_long, sizeof too_long);
    EXPECT(t.refusal == 4 && t.block == 0 && t.rows == 0 && t.tried == 93);
    t = sharing_check_tried(10, 5, 1, too_long, sizeof too_long);
    EXPECT(t.refusal == 3 && t.block == 0 && t.rows == 0 && t.tried == 0);
    t = sharing_check_tried_default();
    EXPECT(t.refusal == 0 && t.block == 6 && t.rows == 6 && t.tried == 2);
}

static void lengths_are(
    sharing_lengths_answer a, uint64_t blocks, uint64_t keys, uint64_t share, uint64_t output, uint64_t opened) {
    EXPECT(a.refusal == 0 && a.blocks == blocks && a.keys == keys);
    EXPECT(a.share == share && a.output == output && a.opened == opened);
}

static void lengths_refused(sharing_lengths_answer a, uint64_t refusal) {
    EXPECT(a.refusal == refusal && a.blocks == 0 && a.keys == 0);
    EXPECT(a.share == 0 && a.output == 0 && a.opened == 0);
}

/* Of 13 bytes, in blocks of 6 with 3 rows; of 12, which fill two blocks; and of 33 in the default scheme. */
static void message_lengths(void) {
    const uint8_t too_long[] = {10, 9, 8, 6};
    lengths_are(sharing_lengths(5, 1, 2, counts, 2, 13), 3, 18, 9, 45, 13);
    lengths_are(sharing_lengths(5, 1, 2, counts, 2, 12), 2, 12, 6, 30, 12);
    lengths_are(sharing_lengths(5, 1, 2, counts, 2, 0), 0, 0, 0, 0, 0);
    lengths_are(sharing_lengths_padded(5, 1, 2, counts, 2, 13), 3, 18, 9, 45, 18);
    lengths_are(sharing_lengths_padded(5, 1, 2, counts, 2, 12), 3, 18, 9, 45, 18);
    lengths_are(sharing_lengths_padded(5, 1, 2, counts, 2, 0), 1, 6, 3, 15, 6);
    lengths_are(sharing_lengths_default(33), 6, 72, 36, 180, 33);
    lengths_are(sharing_lengths_padded_default(33), 6, 72, 36, 180, 36);
    lengths_are(sharing_lengths_default(16384), 2731, 32772, 16386, 81930, 16384);
    lengths_are(sharing_lengths_padded_default(16384), 2731, 32772, 16386, 81930, 16386);
    lengths_refused(sharing_lengths(5, 1, 0, counts, 2, 13), 2);
    lengths_refused(sharing_lengths(10, 4, 1, too_long, 4, 16385), 4);
    lengths_refused(sharing_lengths(5, 1, 2, counts, 2, SIZE_MAX), 5);
    lengths_refused(sharing_lengths_padded(10, 4, 1, too_long, 4, 16385), 4);
    lengths_refused(sharing_lengths_padded(5, 1, 2, counts, 2, SIZE_MAX), 5);
    lengths_refused(sharing_lengths_default(16385), 5);
    lengths_refused(sharing_lengths_padded_default(16385), 5);
}

static void splits(void) {
    uint8_t out[15];
    sharing_answer a = sharing_split(5, 1, 2, counts, 2, message, 5, keys, 6, out, 15);
    EXPECT(a.refusal == 0 && a.value == 3 && memcmp(out, shares, 15) == 0);
    a = sharing_split_padded(5, 1, 2, counts, 2, message, 5, keys, 6, out, 15);
    EXPECT(a.refusal == 0 && a.value == 3 && memcmp(out, padded_shares, 15) == 0);
}

static void prefixes(void) {
    sharing_answer a = sharing_prefix(5, 1, 2, counts, 2, 5, 5, shares, 3);
    EXPECT(a.refusal == 0 && a.value == 2);
    a = sharing_prefix(5, 1, 2, counts, 2, 5, 4, shares, 3);
    EXPECT(a.refusal == 0 && a.value == 3);
    a = sharing_prefix_padded(5, 1, 2, counts, 2, 5, padded_shares, 3);
    EXPECT(a.refusal == 0 && a.value == 2);
    a = sharing_prefix_padded(5, 1, 2, counts, 2, 4, padded_shares, 15);
    EXPECT(a.refusal == 0 && a.value == 15);
}

/* Turned over, the table would be another. */
static void bases(void) {
    const uint8_t weights[4][4] = {{247, 24, 153, 119}, {185, 223, 0, 102}, {246, 74, 82, 238}, {185, 141, 203, 255}};
    sharing_basis_answer basis = sharing_basis(5, 1, 2, counts, 2, four, 4);
    EXPECT(basis.refusal == 0);
    for (int k = 0; k < 256; k++)
        EXPECT(basis.weights[k] == (k / 16 < 4 && k % 16 < 4 ? weights[k / 16][k % 16] : 0));
}

static void openings(void) {
    const uint8_t five[] = {1, 2, 3, 4, 5}, of_five[] = {14, 235, 61, 95, 40, 214, 137, 31, 226, 173};
    const uint8_t of_four[] = {14, 235, 232, 61, 95, 142, 137, 31, 92, 226, 173, 124};
    uint8_t opened[5] = {0}, again[5] = {0};
    sharing_answer a = sharing_reconstruct(5, 1, 2, counts, 2, 5, five, 5, of_five, 10, opened, 5);
    EXPECT(a.refusal == 0 && a.value == 10 && memcmp(opened, message, 5) == 0);
    a = sharing_reconstruct(5, 1, 2, counts, 2, 5, four, 4, of_four, 12, again, 5);
    EXPECT(a.refusal == 0 && a.value == 12 && memcmp(again, message, 5) == 0);
}

/*
 * The rows hold 5 7 1, then 255 16 0, then the copies 1 0, which are taken first from four parties. They are enough for the
 * byte 1, and with the first row for all three. The second row has not come yet: zeros stand in its place.
 */
static void ranges(void) {
    const uint8_t of_four[] = {14, 0, 232, 61, 0, 142, 137, 0, 92, 226, 0, 124}, before[] = {7, 7, 7, 7, 7};
    const struct { size_t start, length, value; } accepted[] = {{0, 3, 8}, {1, 1, 8}, {2, 1, 4}, {0, 0, 0}, {5, 0, 0}};
    const struct { size_t start, length, prefixes, out, refusal; } refused[] = {
        {0, 3, 12, 2, 10}, {0, 3, 12, 5, 10}, {0, 3, 11, 2, 9}, {4, 2, 11, 3, 15}, {6, 0, 12, 0, 15},
        {SIZE_MAX, 0, 12, 0, 15}, {SIZE_MAX, 1, 12, 0, 15}, {SIZE_MAX, 4, 12, 3, 15}, {1, SIZE_MAX, 12, 0, 15},
    };
    uint8_t out[5];
    for (size_t i = 0; i < sizeof accepted / sizeof *accepted; i++) {
        size_t start = accepted[i].start, length = accepted[i].length;
        memcpy(out, before, 5);
        sharing_answer a =
            sharing_reconstruct_range(5, 1, 2, counts, 2, 5, start, length, four, 4, of_four, 12, out, length);
        EXPECT(a.refusal == 0 && a.value == accepted[i].value);
        EXPECT(memcmp(out, message + start, length) == 0 && memcmp(out + length, before, 5 - length) == 0);
    }
    memcpy(out, before, 5);
    for (size_t i = 0; i < sizeof refused / sizeof *refused; i++) {
        sharing_answer a = sharing_reconstruct_range(
            5, 1, 2, counts, 2, 5, refused[i].start, refused[i].length, four, 4, of_four, refused[i].prefixes,
            out, refused[i].out);
        EXPECT(a.refusal == refused[i].refusal && a.value == 0 && memcmp(out, before, 5) == 0);
    }
}

static void padded_openings(void) {
    const uint8_t of_four[] = {14, 107, 104, 61, 135, 226, 137, 48, 17, 226, 2, 95};
    const uint8_t of_earlier[] = {14, 235, 232, 61, 95, 142, 137, 31, 92, 226, 173, 124};
    uint8_t opened[6] = {0};
    sharing_padded_answer a = sharing_reconstruct_padded(5, 1, 2, counts, 2, four, 4, of_four, 12, opened, 6);
    EXPECT(a.refusal == 0 && a.used == 12 && a.length == 5 && memcmp(opened, message, 5) == 0 && opened[5] == 128);
    memset(opened, 7, 6);
    a = sharing_reconstruct_padded(5, 1, 2, counts, 2, four, 4, of_earlier, 12, opened, 6);
    EXPECT(a.refusal == 11 && a.used == 0 && a.length == 0 && opened[0] == 7 && opened[5] == 7);
}

/* The first byte was taken before. Each split takes six: first the keys of the known shares, then others. */
static const uint8_t pool_bytes[] = {77, 9, 4, 2, 6, 200, 33, 8, 1, 5, 90, 3, 7};

static void pools(void) {
    sharing_key_pool pool = {13, 1};
    uint8_t out[15], plain[15] = {0};
    sharing_answer a = sharing_split_from_pool(&pool, 5, 1, 2, counts, 2, message, 5, pool_bytes, 13, out, 15);
    EXPECT(a.refusal == 0 && a.value == 3 && memcmp(out, shares, 15) == 0);
    EXPECT(pool.length == 13 && pool.position == 7);
    a = sharing_split_padded_from_pool(&pool, 5, 1, 2, counts, 2, message, 5, pool_bytes, 13, out, 15);
    EXPECT(a.refusal == 0 && a.value == 3 && pool.length == 13 && pool.position == 13);
    a = sharing_split_padded(5, 1, 2, counts, 2, message, 5, pool_bytes + 7, 6, plain, 15);
    EXPECT(a.refusal == 0 && memcmp(out, plain, 15) == 0);
    a = sharing_split_from_pool(&pool, 5, 1, 2, counts, 2, message, 0, pool_bytes, 13, out, 0);
    EXPECT(a.refusal == 0 && a.value == 0 && pool.length == 13 && pool.position == 13);
    pool.position = 1;
    a = sharing_split_padded_from_pool(&pool, 5, 1, 2, counts, 2, message, 5, pool_bytes, 13, out, 15);
    EXPECT(a.refusal == 0 && a.value == 3 && memcmp(out, padded_shares, 15) == 0 && pool.position == 7);
}

/* Alone, and together with what is looked at later. Two positions would pass if a sum wrapped around. */
static void refused_pools(void) {
    static const uint8_t too_long[16385];
    const struct { size_t length, position, n, message, out, refusal; } refused[] = {
        {13, 7, 5, 5, 14, 10}, {13, 8, 5, 5, 15, 16}, {13, 14, 5, 0, 0, 16}, {12, 1, 5, 5, 15, 16}, {14, 1, 5, 5, 14, 16},
        {13, SIZE_MAX, 5, 5, 15, 16}, {13, SIZE_MAX - 5, 5, 5, 15, 16}, {SIZE_MAX, SIZE_MAX, 5, 0, 0, 16},
        {14, 14, 5, 16385, 15, 5}, {14, 14, 1, 16385, 15, 1},
    };
    uint8_t out[15], before[15];
    memset(before, 7, 15);
    memcpy(out, before, 15);
    for (size_t i = 0; i < sizeof refused / sizeof *refused; i++) {
        size_t length = refused[i].length, position = refused[i].position;
        sharing_key_pool pool = {length, position};
        sharing_answer a = sharing_split_from_pool(
            &pool, refused[i].n, 1, 2, counts, 2, too_long, refused[i].message, pool_bytes, 13, out, refused[i].out);
        EXPECT(a.refusal == refused[i].refusal && a.value == 0 && memcmp(out, before, 15) == 0);
        EXPECT(pool.length == length && pool.position == position);
        a = sharing_split_padded_from_pool(
            &pool, refused[i].n, 1, 2, counts, 2, too_long, refused[i].message, pool_bytes, 13, out, refused[i].out);
        EXPECT(a.refusal == refused[i].refusal && a.value == 0 && memcmp(out, before, 15) == 0);
        EXPECT(pool.length == length && pool.position == position);
    }
}

/*
 * Of the padded shares, 3 bytes each: any four rebuild the fifth, and any one of themselves. Of a held copy the first byte
 * and the last one are changed. One wrong share in five is noticed and not named; that takes r of 2 or more.
 */
static void rebuilding(void) {
    const uint8_t third[] = {40, 142, 111}, changed[] = {41, 142, 110}, all[] = {1, 2, 3, 4, 5};
    uint8_t of_four[12], wrong[15], out[4] = {7, 7, 7, 7};
    memcpy(of_four, padded_shares, 6);
    memcpy(of_four + 6, padded_shares + 9, 6);
    sharing_rebuild_answer a = sharing_rebuild(5, 1, 2, counts, 2, four, 4, of_four, 12, 3, changed, 3, out, 3);
    EXPECT(a.refusal == 0 && a.differing == 2 && a.party == 0 && memcmp(out, third, 3) == 0 && out[3] == 7);
    a = sharing_rebuild(5, 1, 2, counts, 2, all, 5, padded_shares, 15, 3, third, 0, out, 3);
    EXPECT(a.refusal == 0 && a.differing == 0 && a.party == 0 && memcmp(out, third, 3) == 0);
    a = sharing_rebuild(5, 1, 2, counts, 2, four, 4, of_four, 12, 5, third, 3, out, 3);
    EXPECT(a.refusal == 0 && a.differing == 3 && a.party == 0 && memcmp(out, padded_shares + 12, 3) == 0);
    memcpy(wrong, padded_shares, 15);
    wrong[7] ^= 1;
    memset(out, 7, 4);
    a = sharing_rebuild(5, 1, 2, counts, 2, all, 5, wrong, 15, 3, changed, 3, out, 3);
    EXPECT(a.refusal == 18 && a.differing == 0 && a.party == 0 && out[0] == 7 && out[2] == 7);
    /* No blocks: neither a share nor a copy has a byte. */
    a = sharing_rebuild(5, 1, 2, counts, 2, four, 4, of_four, 0, 3, changed, 0, out, 0);
    EXPECT(a.refusal == 0 && a.differing == 0 && a.party == 0 && out[0] == 7);
}

/* Alone, and together with what is looked at later. A number of parties that is no count is none of them. */
static void refused_rebuilding(void) {
    const uint8_t three[] = {1, 2, 4}, equal[] = {1, 2, 2, 5}, outside[] = {1, 2, 4, 6};
    const struct { const uint8_t *parties; size_t many, shares, party, held, out, refusal; } refused[] = {
        {four, 4, 12, 0, 3, 3, 7}, {four, 4, 12, 6, 3, 3, 7}, {equal, 4, 12, 3, 3, 3, 7}, {outside, 4, 12, 3, 3, 3, 7},
        {three, 3, 9, 3, 3, 3, 17}, {three, 3, 8, 3, 2, 2, 17}, {three, 0, 0, 3, 0, 0, 17}, {three, 3, 9, 6, 3, 3, 7},
        {four, 4, 11, 3, 3, 3, 9}, {four, 4, 12, 3, 2, 3, 9}, {four, 4, 12, 3, 4, 2, 9}, {four, 4, 0, 3, 3, 0, 9},
        {four, 4, 12, 3, 3, 2, 10}, {four, 4, 12, 3, 0, 4, 10},
    };
    uint8_t out[4] = {7, 7, 7, 7};
    const uint8_t before[] = {7, 7, 7, 7};
    for (size_t i = 0; i < sizeof refused / sizeof *refused; i++) {
        sharing_rebuild_answer a = sharing_rebuild(
            5, 1, 2, counts, 2, refused[i].parties, refused[i].many, shares, refused[i].shares, refused[i].party,
            keys, refused[i].held, out, refused[i].out);
        EXPECT(a.refusal == refused[i].refusal && a.differing == 0 && a.party == 0 && memcmp(out, before, 4) == 0);
    }
    sharing_rebuild_answer a = sharing_rebuild(5, 1, 0, counts, 2, three, 3, shares, 8, 6, keys, 2, out, 2);
    EXPECT(a.refusal == 2 && a.differing == 0 && a.party == 0);
}

/* Of two refusals that apply the first is answered, alone, and the output stays as it was. */
static void two_refusals(void) {
    const uint8_t falling[] = {5, 4, 2, 1};
    uint8_t out[14], before[14];
    memset(before, 7, 14);
    memcpy(out, before, 14);
    sharing_scheme s = sharing_check(5, 1, 0, counts, 1);
    EXPECT(s.refusal == 2 && s.block == 0 && s.rows == 0);
    sharing_answer a = sharing_split(5, 1, 2, counts, 2, message, 5, keys, 5, out, 14);
    EXPECT(a.refusal == 8 && a.value == 0 && memcmp(out, before, 14) == 0);
    a = sharing_prefix(5, 1, 2, counts, 2, 5, 3, shares, 2);
    EXPECT(a.refusal == 6 && a.value == 0);
    sharing_basis_answer basis = sharing_basis(5, 1, 2, counts, 2, falling, 3);
    EXPECT(basis.refusal == 6 && basis.weights[0] == 0);
    a = sharing_reconstruct(5, 1, 2, counts, 2, 5, falling, 4, shares, 11, out, 5);
    EXPECT(a.refusal == 7 && a.value == 0 && memcmp(out, before, 14) == 0);
    a = sharing_reconstruct(5, 1, 2, counts, 2, 5, four, 4, shares, 11, out, 4);
    EXPECT(a.refusal == 9 && a.value == 0 && memcmp(out, before, 14) == 0);
    a = sharing_reconstruct_range(5, 1, 2, counts, 2, 5, 4, 2, falling, 4, shares, 12, out, 2);
    EXPECT(a.refusal == 7 && a.value == 0 && memcmp(out, before, 14) == 0);
    a = sharing_split_padded(5, 1, 2, counts, 2, message, 5, keys, 5, out, 14);
    EXPECT(a.refusal == 8 && a.value == 0 && memcmp(out, before, 14) == 0);
    a = sharing_prefix_padded(5, 1, 2, counts, 2, 3, shares, 2);
    EXPECT(a.refusal == 6 && a.value == 0);
    sharing_padded_answer p = sharing_reconstruct_padded(5, 1, 2, counts, 2, four, 4, shares, 12, out, 5);
    EXPECT(p.refusal == 10 && p.used == 0 && p.length == 0 && memcmp(out, before, 14) == 0);
}

/* Of two blocks of 6 bytes, from three parties: the places 4 and 5 stand in the second and the third row taken. */
static void ranges_by_default(const uint8_t *three, const uint8_t *prefixes, const uint8_t *text) {
    uint8_t out[3] = {7, 7, 7};
    sharing_answer a = sharing_reconstruct_range_default(12, 12, 0, three, 3, prefixes, 36, out, 0);
    EXPECT(a.refusal == 0 && a.value == 0 && out[0] == 7);
    a = sharing_reconstruct_range_default(12, 10, 2, three, 3, prefixes, 36, out, 3);
    EXPECT(a.refusal == 10 && a.value == 0 && out[0] == 7);
    a = sharing_reconstruct_range_default(12, SIZE_MAX, 2, three, 3, prefixes, 36, out, 2);
    EXPECT(a.refusal == 15 && a.value == 0 && out[0] == 7);
    a = sharing_reconstruct_range_default(12, 10, 2, three, 3, prefixes, 36, out, 2);
    EXPECT(a.refusal == 0 && a.value == 18 && memcmp(out, text + 10, 2) == 0 && out[2] == 7);
}

/* Twelve bytes in two blocks of 6, with 6 rows of 2 keys each. */
static void default_scheme(void) {
    const uint8_t text[] = "A few words", block_keys[24] = {1, 2, 3, 4, 5, 6};
    const uint8_t three[] = {1, 2, 4}, equal[] = {1, 4, 4};
    uint8_t out[60], prefixes[36], opened[12];
    EXPECT(sizeof text == 12);
    sharing_answer a = sharing_split_default(text, 12, block_keys, 24, out, 60);
    EXPECT(a.refusal == 0 && a.value == 12);
    a = sharing_prefix_default(12, 5, out, 12);
    EXPECT(a.refusal == 0 && a.value == 4);
    memcpy(prefixes, out, 24);
    memcpy(prefixes + 24, out + 36, 12);
    a = sharing_reconstruct_default(12, three, 3, prefixes, 36, opened, 12);
    EXPECT(a.refusal == 0 && a.value == 36 && memcmp(opened, text, 12) == 0);
    ranges_by_default(three, prefixes, text);
    EXPECT(sharing_basis_default(three, 3).refusal == 0);
    sharing_basis_answer refused = sharing_basis_default(equal, 3);
    EXPECT(refused.refusal == 7 && refused.weights[0] == 0);
}

/* Twelve bytes fill two blocks, and make three when they are padded. */
static void padded_by_default(void) {
    const uint8_t text[] = "A few words", three_blocks_keys[36] = {1, 2, 3}, three[] = {1, 2, 4};
    uint8_t out[90], prefixes[54], opened[18];
    sharing_answer a = sharing_split_padded_default(text, 12, three_blocks_keys, 36, out, 90);
    EXPECT(a.refusal == 0 && a.value == 18);
    a = sharing_prefix_padded_default(5, out, 18);
    EXPECT(a.refusal == 0 && a.value == 6);
    memcpy(prefixes, out, 36);
    memcpy(prefixes + 36, out + 54, 18);
    sharing_padded_answer p = sharing_reconstruct_padded_default(three, 3, prefixes, 54, opened, 18);
    EXPECT(p.refusal == 0 && p.used == 54 && p.length == 12 && memcmp(opened, text, 12) == 0 && opened[12] == 128);
}

/* From all five parties a wrong share is named, whichever it is; from four it is noticed, and from three it is not. */
static void rebuilding_by_default(void) {
    const uint8_t text[] = "A few words", block_keys[24] = {1, 2, 3, 4, 5, 6}, all[] = {1, 2, 3, 4, 5};
    uint8_t of_all[60], wrong[60], out[12], before[12];
    EXPECT(sharing_split_default(text, 12, block_keys, 24, of_all, 60).refusal == 0);
    for (int place = 0; place < 5; place++) {
        memcpy(wrong, of_all, 60);
        wrong[12 * place + 7] ^= 32;
        memset(before, 7, 12);
        memcpy(out, before, 12);
        sharing_rebuild_answer a = sharing_rebuild_default(all, 5, wrong, 60, 2, wrong, 12, out, 12);
        EXPECT(a.refusal == 18 && a.differing == 0 && a.party == all[place] && memcmp(out, before, 12) == 0);
        a = sharing_rebuild_default(all, 4, wrong, 48, 5, wrong, 0, out, 12);
        EXPECT(place == 4 || (a.refusal == 18 && a.differing == 0 && a.party == 0 && memcmp(out, before, 12) == 0));
        EXPECT(place != 4 || (a.refusal == 0 && a.differing == 0 && memcmp(out, of_all + 48, 12) == 0));
        a = sharing_rebuild_default(all, 3, wrong, 36, 4, of_all + 36, 12, out, 12);
        EXPECT(a.refusal == 0 && a.party == 0 && (place < 3) == (a.differing > 0));
    }
    sharing_rebuild_answer a = sharing_rebuild_default(all, 2, of_all, 24, 5, text, 0, out, 12);
    EXPECT(a.refusal == 17 && a.differing == 0 && a.party == 0);
}

/* Two blocks take 24 bytes of the pool, the three of the padded message the next 36, and then none is left. */
static void pools_by_default(void) {
    const uint8_t text[] = "A few words", bytes[60] = {1, 2, 3, [23] = 4, 5, 6, [59] = 7};
    sharing_key_pool pool = {60, 0};
    uint8_t out[90], plain[90] = {0};
    sharing_answer a = sharing_split_from_pool_default(&pool, text, 12, bytes, 60, out, 60);
    EXPECT(a.refusal == 0 && a.value == 12 && pool.length == 60 && pool.position == 24);
    a = sharing_split_default(text, 12, bytes, 24, plain, 60);
    EXPECT(a.refusal == 0 && memcmp(out, plain, 60) == 0);
    a = sharing_split_padded_from_pool_default(&pool, text, 12, bytes, 60, out, 89);
    EXPECT(a.refusal == 10 && a.value == 0 && pool.position == 24 && memcmp(out, plain, 60) == 0);
    a = sharing_split_padded_from_pool_default(&pool, text, 12, bytes, 60, out, 90);
    EXPECT(a.refusal == 0 && a.value == 18 && pool.length == 60 && pool.position == 60);
    a = sharing_split_padded_default(text, 12, bytes + 24, 36, plain, 90);
    EXPECT(a.refusal == 0 && memcmp(out, plain, 90) == 0);
    a = sharing_split_from_pool_default(&pool, text, 12, bytes, 60, out, 60);
    EXPECT(a.refusal == 16 && a.value == 0 && pool.position == 60 && memcmp(out, plain, 90) == 0);
    a = sharing_split_padded_from_pool_default(&pool, text, 12, bytes, 59, out, 90);
    EXPECT(a.refusal == 16 && a.value == 0 && pool.position == 60 && memcmp(out, plain, 90) == 0);
}

/*
 * The former default, n 5, r 2, z 1, counts 5, 4, 3, and what parties 1, 2 and 3 stored under it of the five bytes "Noon.",
 * in the earlier form and padded. It is named to open them; the default scheme opens them too, to other bytes.
 */
static const uint8_t former_counts[] = {5, 4, 3}, three_parties[] = {1, 2, 3};
#define FORMER_DEFAULT 5, 2, 1, former_counts, 3

static void stored_shares(void) {
    const uint8_t stored[] = {9, 92, 187, 106, 34, 150, 253, 46, 187, 216, 147, 150, 164, 0, 187, 182, 252, 150};
    uint8_t opened[5];
    sharing_answer a = sharing_prefix(FORMER_DEFAULT, 5, 5, stored, 6);
    EXPECT(a.refusal == 0 && a.value == 3);
    a = sharing_prefix_default(5, 5, stored, 6);
    EXPECT(a.refusal == 0 && a.value == 2);
    a = sharing_reconstruct(FORMER_DEFAULT, 5, three_parties, 3, stored, 18, opened, 5);
    EXPECT(a.refusal == 0 && a.value == 18 && memcmp(opened, "Noon.", 5) == 0);
    a = sharing_reconstruct_default(5, three_parties, 3, stored, 18, opened, 5);
    EXPECT(a.refusal == 0 && a.value == 18 && memcmp(opened, "~\0\0\0\0", 5) == 0);
}

static void stored_padded_shares(void) {
    const uint8_t stored[] = {9, 220, 187, 106, 34, 150, 253, 24, 187, 216, 147, 150, 164, 182, 187, 182, 252, 150};
    uint8_t opened[12];
    sharing_answer a = sharing_prefix_padded(FORMER_DEFAULT, 5, stored, 6);
    EXPECT(a.refusal == 0 && a.value == 3);
    sharing_padded_answer p = sharing_reconstruct_padded(FORMER_DEFAULT, three_parties, 3, stored, 18, opened, 12);
    EXPECT(p.refusal == 0 && p.used == 18 && p.length == 5 && memcmp(opened, "Noon.", 5) == 0);
    p = sharing_reconstruct_padded_default(three_parties, 3, stored, 18, opened, 6);
    EXPECT(p.refusal == 0 && p.used == 18 && p.length == 3 && memcmp(opened, "~\0", 3) == 0);
}

/* Three entries of 1, 2 and 3 bytes: the file, worked out by hand, has 20. */
static const uint8_t contents[] = {7, 8, 9, 10, 11, 12};
static const size_t lengths[] = {1, 2, 3};
static const uint8_t archive[] = {3, 0, 14, 0, 1, 0, 15, 0, 2, 0, 17, 0, 3, 0, 7, 8, 9, 10, 11, 12};

static void archives(void) {
    uint8_t file[20], none[2] = {7, 7};
    sharing_answer a = sharing_archive_write(contents, 6, lengths, 3, file, 20);
    EXPECT(a.refusal == 0 && a.value == 20 && memcmp(file, archive, 20) == 0);
    a = sharing_archive_count(archive, 20);
    EXPECT(a.refusal == 0 && a.value == 3);
    sharing_archive_entry_answer e = sharing_archive_entry(archive, 20, 2);
    EXPECT(e.refusal == 0 && e.offset == 17 && e.length == 3);
    a = sharing_archive_write(contents, 0, lengths, 0, none, 2);
    EXPECT(a.refusal == 0 && a.value == 2 && none[0] == 0 && none[1] == 0);
    a = sharing_archive_count(none, 2);
    EXPECT(a.refusal == 0 && a.value == 0);
}

/* Alone, and together with what is looked at later. */
static void refused_archives(void) {
    static size_t many[4097];
    const struct { size_t contents, lengths, out, refusal; } writes[] = {
        {6, 3, 19, 10}, {5, 3, 19, 13}, {6, 2, 20, 13}, {5, 4097, 3, 12},
    };
    const struct { size_t file, number, refusal; } reads[] = {
        {20, 3, 14}, {19, 3, 13}, {19, 1, 13}, {13, 4, 12}, {1, 0, 12},
    };
    uint8_t out[20], before[20];
    memset(before, 7, 20);
    memcpy(out, before, 20);
    memcpy(many, lengths, sizeof lengths);
    for (int i = 0; i < 4; i++) {
        sharing_answer a = sharing_archive_write(contents, writes[i].contents, many, writes[i].lengths, out, writes[i].out);
        EXPECT(a.refusal == writes[i].refusal && a.value == 0 && memcmp(out, before, 20) == 0);
    }
    for (int i = 0; i < 5; i++) {
        sharing_archive_entry_answer e = sharing_archive_entry(archive, reads[i].file, reads[i].number);
        EXPECT(e.refusal == reads[i].refusal && e.offset == 0 && e.length == 0);
        sharing_answer a = sharing_archive_count(archive, reads[i].file);
        EXPECT(a.refusal == (reads[i].refusal == 14 ? 0 : reads[i].refusal) && a.value == (a.refusal == 0 ? 3 : 0));
    }
}

/* What the limits say is accepted, and what is one more is refused. No scheme has a block from 841 to 857 bytes. */
static void limits_of_schemes(void) {
    const uint8_t falling[] = {10, 9, 8, 7, 6, 5, 4, 3, 2}, to_858[] = {14, 12, 7};
    const uint8_t most[] = {SHARING_MAX_PARTIES}, more[] = {SHARING_MAX_PARTIES + 1};
    EXPECT(sharing_check(SHARING_MAX_PARTIES, 0, 1, most, 1).refusal == SHARING_ACCEPTED);
    EXPECT(sharing_check(SHARING_MAX_PARTIES + 1, 0, 1, more, 1).refusal == SHARING_REFUSED_PARTIES);
    sharing_scheme s = sharing_check(9, 7, 1, falling + 1, SHARING_MAX_COUNTS);
    EXPECT(s.refusal == SHARING_ACCEPTED && s.block == SHARING_MAX_BLOCK);
    EXPECT(sharing_check(10, 8, 1, falling, SHARING_MAX_COUNTS + 1).refusal == SHARING_REFUSED_COUNTS);
    EXPECT(sharing_check(14, 7, 1, to_858, 3).refusal == SHARING_REFUSED_BLOCK_LENGTH);
}

static void limits_of_archives(void) {
    static uint8_t bytes[SHARING_MAX_OFFSET_OR_LENGTH + 2], file[1 << 17];
    static size_t ones[SHARING_MAX_ENTRIES + 1];
    const size_t entries = SHARING_MAX_ENTRIES, most = SHARING_MAX_OFFSET_OR_LENGTH;
    /* The second entry starts after 10 bytes and the first. */
    const size_t as_long[] = {most}, too_long[] = {most + 1}, late[] = {most - 10, 1}, too_late[] = {most - 9, 1};
    const struct { const size_t *lengths; size_t many, contents, refusal; } writes[] = {
        {ones, entries, entries, SHARING_ACCEPTED}, {ones, entries + 1, entries + 1, SHARING_REFUSED_ARCHIVE_COUNT},
        {as_long, 1, most, SHARING_ACCEPTED}, {too_long, 1, most + 1, SHARING_REFUSED_ARCHIVE_ENTRIES},
        {late, 2, most - 9, SHARING_ACCEPTED}, {too_late, 2, most - 8, SHARING_REFUSED_ARCHIVE_ENTRIES},
    };
    for (size_t i = 0; i <= entries; i++) ones[i] = 1;
    for (size_t i = 0; i < sizeof writes / sizeof *writes; i++) {
        size_t contents_length = writes[i].contents, many = writes[i].many;
        sharing_answer a = sharing_archive_write(
            bytes, contents_length, writes[i].lengths, many, file, 2 + 4 * many + contents_length);
        EXPECT(a.refusal == writes[i].refusal);
    }
}

/* The longest message, of the default scheme with and without its name. */
static void longest_message(void) {
    static uint8_t text[SHARING_MAX_MESSAGE + 1], drawn[1 << 16], named[1 << 17], unnamed[1 << 17];
    const uint8_t three[] = SHARING_DEFAULT_COUNTS;
    for (size_t i = 0; i < sizeof drawn; i++) drawn[i] = (uint8_t)(i * i / 7);
    for (size_t i = 0; i < sizeof text; i++) text[i] = (uint8_t)(i / 3);
    const size_t share = (SHARING_MAX_MESSAGE / 6 + 1) * 6;
    const size_t all = SHARING_DEFAULT_N * share, two = SHARING_DEFAULT_Z * share;
    sharing_answer a = sharing_split_padded(
        SHARING_DEFAULT_N, SHARING_DEFAULT_R, SHARING_DEFAULT_Z, three, sizeof three, text, SHARING_MAX_MESSAGE,
        drawn, two, named, all);
    EXPECT(a.refusal == SHARING_ACCEPTED && a.value == share);
    a = sharing_split_padded_default(text, SHARING_MAX_MESSAGE, drawn, two, unnamed, all);
    EXPECT(a.refusal == SHARING_ACCEPTED && memcmp(named, unnamed, all) == 0);
    a = sharing_split_padded_default(text, SHARING_MAX_MESSAGE + 1, drawn, two, unnamed, all);
    EXPECT(a.refusal == SHARING_REFUSED_MESSAGE_LENGTH);
}

int main(void) {
    sizes();
    names_of_refusals();
    arithmetic();
    schemes();
    message_lengths();
    splits();
    prefixes();
    bases();
    openings();
    ranges();
    padded_openings();
    pools();
    refused_pools();
    rebuilding();
    refused_rebuilding();
    two_refusals();
    default_scheme();
    padded_by_default();
    pools_by_default();
    rebuilding_by_default();
    stored_shares();
    stored_padded_shares();
    archives();
    refused_archives();
    limits_of_schemes();
    limits_of_archives();
    longest_message();
    return failures != 0;
}
