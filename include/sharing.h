/* SPDX-License-Identifier: Apache-2.0 */
/*
 * Secret sharing by staircase polynomials over bytes, and archives of shares: the C boundary of the
 * proved libraries (x86-64). Link libsharing.a: installed, pkg-config finds it by the name `sharing`; in the
 * repository it is target/libsharing.a, which `make` makes. It needs nothing but the C library's memcpy and
 * memset. Every name in it starts with `sharing_`, but for seven: the calls on bytes and on archives had other
 * names before, which are still there and stand at the end of this file. They are weak: define
 * SHARING_NO_OLD_NAMES before this file is included to have names of your own in their place.
 *
 * A scheme is n parties, of which r may be absent and z may collude, and a falling list of counts:
 * the numbers of parties from which a message can be reconstructed. With d parties, d one of the
 * counts, each sends the first m / (d - z) x N bytes of its share, its prefix. Here m is the length of
 * a block, b = m / (n - r - z) the number of its rows, and N the number of blocks of the message.
 *
 * A message of L bytes has one of two forms, which differ in their padding:
 *
 * - Padded, for the calls whose names have `_padded`, it knows its own end. A byte 128 follows it, and
 *   zeros up to the end of that byte's block, also where the message alone would fill its blocks:
 *   N = L / m (rounded down) + 1. Who reads it needs no L: N follows from the length of a share or of
 *   prefixes, and opening answers L.
 * - In the earlier form, kept for shares from before there was the other, zeros follow it where the
 *   last block is not full: N = L / m (rounded up). L is not in the shares: the caller keeps it.
 *
 * Every call that takes a scheme has a form whose name ends in `_default`, without its parameters, for
 * the scheme n 5, r 2, z 2, counts 5, 4, 3.
 *
 * The default was another before: n 5, r 2, z 1, counts 5, 4, 3. Nothing in a share tells its scheme.
 * Shares that the `_default` calls of that time wrote are for the calls with a scheme, with 5, 2, 1 and
 * these counts. The `_default` calls take them for shares of the new default: for many lengths of a padded
 * message, and in the earlier form where the lengths fit, nothing is refused, and what comes out are other
 * bytes, or pieces of the message. docs/former-default.md has the lengths.
 *
 * Every call returns, whatever numbers, bytes and lengths it is given; no pointer may be NULL, not even
 * beside the length 0, which compilers that look at it are told. `refusal` is 0 when it was accepted;
 * otherwise it is the first of these numbers that applies (15 and 17 are looked at before 9, 16 before 10,
 * and 10 by sharing_archive_write alone last), every other field is 0 but for `tried` beside refusal 4 and
 * `party` beside refusal 18, and nothing was written. `sharing_refusal` has a name for each:
 *
 *    1  n is below 2 or above 16
 *    2  z is 0, or r + z is n or more
 *    3  the counts are none or more than 8, do not fall strictly, start above n, or do not end at n - r
 *    4  the block length m is above 840
 *    5  the message is longer than 16,384 bytes
 *    6  the number of parties to read from, d, is not one of the counts
 *    7  the parties do not rise strictly, or one is not from 1 to n, the one to rebuild included
 *    8  the keys do not have N x z x b bytes
 *    9  the share does not have N x b bytes, or the prefixes together d x m / (d - z) x N; of a padded
 *       message: no N from 1 to 16,384 / m (rounded down) + 1 gives this length. Rebuilding a share: the
 *       shares together do not have N x b bytes from each party for any N from 0 to there, or the held copy
 *       is neither empty nor N x b bytes long
 *   10  the output does not have the length that the call writes
 *   11  the prefixes do not end as a padded message of at most 16,384 bytes does: in the last block the
 *       last byte other than 0 is not 128, or there is none, or it stands too late. A wrong share, scheme
 *       or party, prefixes for another number of parties, or shares of the earlier form
 *   12  reading an archive: the file has less than 2 bytes, or its count is above 4,096, or its pairs are
 *       cut short; writing one: there are more than 4,096 lengths
 *   13  reading: an entry does not start where it has to, or has no bytes, or the last one does not end
 *       the file; writing: an entry has no bytes, an offset or a length is above 65,535, or the lengths
 *       do not add up to contents_length (no sum wraps around)
 *   14  no entry of the archive has this number
 *   15  the range ends after the message: start + range_length is above message_length (the sum does not
 *       wrap around)
 *   16  the pool's record says another length than pool_bytes_length, or its position is past it, or fewer
 *       bytes are left, length - position, than the N x z x b that the split takes (no sum wraps around)
 *   17  there are fewer shares than n - r
 *   18  the shares do not agree: no blocks and keys give them all
 *
 * What the caller owes, since nothing here can check it: a pointer is not NULL; as many bytes as its
 * length says stand behind it, or as many numbers behind `lengths`, and no other thread changes them
 * during the call; `out` does not overlap what the call reads. Keys are to be drawn evenly at random,
 * kept as secret as the message, and used for one message only: the library draws none. A pool of keys asks
 * for more, which stands beside its record, sharing_key_pool.
 *
 * Memory: no call allocates, or keeps anything for the next one. It works on what it is lent and on its
 * stack, of which it needs at most SHARING_STACK bytes: rebuilding a share at most 44 KB, opening at most 24 KB,
 * all others less than 3 KB. Where a loader looks for memcpy in the first call only, that one needs 3 KB more.
 * So it was measured; it is not proved. Copies of the message and of keys stay on the stack after the call.
 * Where that matters, overwrite SHARING_STACK bytes of the stack from the same place afterwards, or call in a
 * thread whose stack is yours and overwrite that when the thread has ended.
 *
 * Threads: any number of calls may run at once, also one in a signal handler that interrupted another, as
 * long as nobody else writes what a call reads, or touches what it writes: `out`, and of a pool its record
 * and its bytes, belong to one call at a time.
 *
 * C++: data() of an empty std::vector may be NULL, which no call takes. Lend the address of any byte then:
 *
 *     static const uint8_t none = 0;
 *     const uint8_t *lent = v.empty() ? &none : v.data();
 *
 * In Rattle there are four operations more on schemes: the prefix as a part of the lent share, in either
 * form of message, which in C is the share's own pointer with the length that sharing_prefix or
 * sharing_prefix_padded answers; the size of a basis, whose refusal stands here beside the table, since
 * a struct holds both; and the text of a scheme's sheet, which the program scheme_sheet prints. And there
 * are two on archives, for which sharing_archive_entry stands here: the length of an entry, and the entry
 * as a part of the lent file, which in C is the file's own pointer plus the offset.
 */
#ifndef SHARING_H
#define SHARING_H

#include <stddef.h>
#include <stdint.h>

/* Written by `make version` from the file VERSION. */
#define SHARING_VERSION_MAJOR 0
#define SHARING_VERSION_MINOR 2
#define SHARING_VERSION_PATCH 0
#define SHARING_VERSION "0.2.0"

/* The limits: the most parties, the most counts, and the longest block and the longest message in bytes. */
#define SHARING_MAX_PARTIES 16
#define SHARING_MAX_COUNTS 8
#define SHARING_MAX_BLOCK 840
#define SHARING_MAX_MESSAGE 16384
/* Of an archive: the most entries, and the greatest offset and the greatest length of one. */
#define SHARING_MAX_ENTRIES 4096
#define SHARING_MAX_OFFSET_OR_LENGTH 65535

/* The scheme of the calls whose names end in `_default`; the counts are for an array of bytes. */
#define SHARING_DEFAULT_N 5
#define SHARING_DEFAULT_R 2
#define SHARING_DEFAULT_Z 2
#define SHARING_DEFAULT_COUNTS {5, 4, 3}

/* No call needs more bytes of stack; it was measured, and is 48 KB. */
#define SHARING_STACK 49152

/*
 * What a compiler can watch over: that no NULL is passed, and that an answer is looked at, since a refusal
 * stands nowhere else.
 */
#if defined(__GNUC__) || defined(__clang__)
#define SHARING_CALL __attribute__((nonnull, warn_unused_result))
#define SHARING_CALL_WITHOUT_POINTERS __attribute__((warn_unused_result))
#else
#define SHARING_CALL
#define SHARING_CALL_WITHOUT_POINTERS
#endif

#ifdef __cplusplus
extern "C" {
#endif

/* The numbers of the refusals, in a few words; the table above has the full ones. */
typedef enum sharing_refusal {
    SHARING_ACCEPTED = 0,
    /* n: too few parties, or too many. */
    SHARING_REFUSED_PARTIES = 1,
    /* r and z: none may collude, or too few parties are left. */
    SHARING_REFUSED_ABSENT_OR_COLLUDING = 2,
    /* The list of counts. */
    SHARING_REFUSED_COUNTS = 3,
    /* The block would be too long. */
    SHARING_REFUSED_BLOCK_LENGTH = 4,
    /* The message is too long. */
    SHARING_REFUSED_MESSAGE_LENGTH = 5,
    /* d: this number of parties is no count. */
    SHARING_REFUSED_READERS = 6,
    /* The list of parties, or the party to rebuild. */
    SHARING_REFUSED_PARTY_NUMBERS = 7,
    /* The length of the keys. */
    SHARING_REFUSED_KEYS_LENGTH = 8,
    /* The length of the share, the shares, the prefixes or the held copy. */
    SHARING_REFUSED_SHARE_LENGTH = 9,
    /* The length of the output. */
    SHARING_REFUSED_OUT_LENGTH = 10,
    /* What was opened does not end as a padded message does. */
    SHARING_REFUSED_PADDING = 11,
    /* An archive: too short, or too many entries. */
    SHARING_REFUSED_ARCHIVE_COUNT = 12,
    /* An archive: an entry that is out of its place, empty or too long. */
    SHARING_REFUSED_ARCHIVE_ENTRIES = 13,
    /* An archive: no entry has this number. */
    SHARING_REFUSED_ENTRY_NUMBER = 14,
    /* The range ends after the message. */
    SHARING_REFUSED_RANGE = 15,
    /* The pool's record does not fit its bytes, or too few are left. */
    SHARING_REFUSED_POOL = 16,
    /* Too few shares to rebuild one. */
    SHARING_REFUSED_TOO_FEW_SHARES = 17,
    /* The shares do not agree: one is wrong, or more. */
    SHARING_REFUSED_DISAGREEING = 18
} sharing_refusal;

/* An accepted scheme: the length m of a block in bytes, and the number b of its rows. */
typedef struct {
    uint64_t refusal;
    uint64_t block;
    uint64_t rows;
} sharing_scheme;

/*
 * The same, and how many multiples of the first d - z were tried in the search for m. This number is
 * there also beside refusal 4.
 */
typedef struct {
    uint64_t refusal;
    uint64_t block;
    uint64_t rows;
    uint64_t tried;
} sharing_tried_scheme;

/* What `value` is, each call says. */
typedef struct {
    uint64_t refusal;
    uint64_t value;
} sharing_answer;

/* An opened padded message: the number of prefix bytes used, and the length L of the message. */
typedef struct {
    uint64_t refusal;
    uint64_t used;
    uint64_t length;
} sharing_padded_answer;

/* The weight of the party at place i of the list (from 0) at degree e is weights[16 * i + e]. */
typedef struct {
    uint64_t refusal;
    uint8_t weights[256];
} sharing_basis_answer;

/* Checks a scheme and answers its block length and rows. Refusals 1 to 4. */
SHARING_CALL
sharing_scheme sharing_check(uint8_t n, uint8_t r, uint8_t z, const uint8_t *counts, size_t counts_length);

/* The same of the default scheme, which is accepted: 6 and 6. */
SHARING_CALL_WITHOUT_POINTERS
sharing_scheme sharing_check_default(void);

/*
 * The same check, and how many numbers it tried for m: the multiples of the first d - z, rising, up to m.
 * So `tried` is m / (d - z) of the first count where the scheme is accepted, 840 / (d - z) of the first
 * count (rounded down) on refusal 4, and 0 on refusals 1 to 3.
 */
SHARING_CALL
sharing_tried_scheme sharing_check_tried(
    uint8_t n, uint8_t r, uint8_t z, const uint8_t *counts, size_t counts_length);

/* The same of the default scheme: 6, 6, and 2 tried. */
SHARING_CALL_WITHOUT_POINTERS
sharing_tried_scheme sharing_check_tried_default(void);

/*
 * The lengths that a message asks for: the number N of its blocks, and in bytes the keys, one share, the
 * output of a split (all shares), and the output of the call that opens the message.
 */
typedef struct {
    uint64_t refusal;
    uint64_t blocks;
    uint64_t keys;
    uint64_t share;
    uint64_t output;
    uint64_t opened;
} sharing_lengths_answer;

/*
 * The lengths of a padded message of message_length bytes: N, N x z x b, N x b, n x N x b, and N x m, since
 * whole blocks are opened. sharing_split_padded takes exactly `keys` and `output`, and answers `share`;
 * sharing_reconstruct_padded, from prefixes of N blocks, takes exactly `opened`. Refusals 1 to 5, which are
 * those of the split.
 */
SHARING_CALL
sharing_lengths_answer sharing_lengths_padded(
    uint8_t n, uint8_t r, uint8_t z, const uint8_t *counts, size_t counts_length, size_t message_length);

/* The same with the default scheme. Refusal 5. */
SHARING_CALL_WITHOUT_POINTERS
sharing_lengths_answer sharing_lengths_padded_default(size_t message_length);

/*
 * The same of a message in the earlier form, for sharing_split and sharing_reconstruct: with that form's N,
 * and `opened` is message_length, since the message alone is opened. Refusals 1 to 5.
 */
SHARING_CALL
sharing_lengths_answer sharing_lengths(
    uint8_t n, uint8_t r, uint8_t z, const uint8_t *counts, size_t counts_length, size_t message_length);

/* The same with the default scheme. Refusal 5. */
SHARING_CALL_WITHOUT_POINTERS
sharing_lengths_answer sharing_lengths_default(size_t message_length);

/*
 * Splits a message, which is padded: writes the n shares of N x b bytes into `out`, one after another,
 * party 1 first. `value` is the length of one share. Refusals 1 to 5, 8 and 10 (`out` has n x N x b
 * bytes).
 */
SHARING_CALL
sharing_answer sharing_split_padded(
    uint8_t n, uint8_t r, uint8_t z, const uint8_t *counts, size_t counts_length,
    const uint8_t *message, size_t message_length, const uint8_t *keys, size_t keys_length,
    uint8_t *out, size_t out_length);

/* The same with the default scheme. Refusals 5, 8 and 10. */
SHARING_CALL
sharing_answer sharing_split_padded_default(
    const uint8_t *message, size_t message_length, const uint8_t *keys, size_t keys_length,
    uint8_t *out, size_t out_length);

/*
 * What one party sends of a padded message when d parties are read from: the first `value` bytes of
 * its share, which is lent whole. Refusals 1 to 4, 6 and 9.
 */
SHARING_CALL
sharing_answer sharing_prefix_padded(
    uint8_t n, uint8_t r, uint8_t z, const uint8_t *counts, size_t counts_length,
    size_t d, const uint8_t *share, size_t share_length);

/* The same with the default scheme. Refusals 6 and 9. */
SHARING_CALL
sharing_answer sharing_prefix_padded_default(size_t d, const uint8_t *share, size_t share_length);

/*
 * Reconstructs a padded message from the prefixes of the parties, which are bytes in rising order; the
 * prefixes stand one after another in the parties' order. `out` has N x m bytes and receives whole
 * blocks: the message, of `length` bytes, and its padding. Who does not know how long the message is takes
 * the bytes of one prefix times d - z, which is N x m. `used` is the number of prefix bytes used,
 * d x m / (d - z) x N. The call sees the prefixes joined, so one too long and one too short by as much
 * would pass: that each has m / (d - z) x N bytes is the caller's to know. Refusals 1 to 4, 6, 7, 9, 10 and
 * 11, in this order. 11 is no check of the rest: false bytes in other blocks always open, and a false last
 * block may, also where the prefixes are those for another number of parties. Shares of the earlier form
 * open too where their message ends in 128, or in 128 and zeros; `length` is then too short.
 */
SHARING_CALL
sharing_padded_answer sharing_reconstruct_padded(
    uint8_t n, uint8_t r, uint8_t z, const uint8_t *counts, size_t counts_length,
    const uint8_t *parties, size_t parties_length, const uint8_t *prefixes, size_t prefixes_length,
    uint8_t *out, size_t out_length);

/* The same with the default scheme. Refusals 6, 7, 9, 10 and 11. */
SHARING_CALL
sharing_padded_answer sharing_reconstruct_padded_default(
    const uint8_t *parties, size_t parties_length, const uint8_t *prefixes, size_t prefixes_length,
    uint8_t *out, size_t out_length);

/*
 * Splits a message in the earlier form: as sharing_split_padded, with the earlier form's N. Refusals 1
 * to 5, 8 and 10 (`out` has n x N x b bytes).
 */
SHARING_CALL
sharing_answer sharing_split(
    uint8_t n, uint8_t r, uint8_t z, const uint8_t *counts, size_t counts_length,
    const uint8_t *message, size_t message_length, const uint8_t *keys, size_t keys_length,
    uint8_t *out, size_t out_length);

/* The same with the default scheme. Refusals 5, 8 and 10. */
SHARING_CALL
sharing_answer sharing_split_default(
    const uint8_t *message, size_t message_length, const uint8_t *keys, size_t keys_length,
    uint8_t *out, size_t out_length);

/*
 * What one party sends of a message of message_length bytes in the earlier form: as
 * sharing_prefix_padded. Refusals 1 to 6 and 9.
 */
SHARING_CALL
sharing_answer sharing_prefix(
    uint8_t n, uint8_t r, uint8_t z, const uint8_t *counts, size_t counts_length,
    size_t message_length, size_t d, const uint8_t *share, size_t share_length);

/* The same with the default scheme. Refusals 5, 6 and 9. */
SHARING_CALL
sharing_answer sharing_prefix_default(size_t message_length, size_t d, const uint8_t *share, size_t share_length);

/*
 * The Lagrange basis of d parties, which are bytes in rising order: row i of the table has the
 * coefficients of the polynomial of degree below d that is 1 at the i-th party and 0 at the others.
 * Entries beyond d are 0. Refusals 1 to 4, 6 and 7.
 */
SHARING_CALL
sharing_basis_answer sharing_basis(
    uint8_t n, uint8_t r, uint8_t z, const uint8_t *counts, size_t counts_length,
    const uint8_t *parties, size_t parties_length);

/* The same with the default scheme. Refusals 6 and 7. */
SHARING_CALL
sharing_basis_answer sharing_basis_default(const uint8_t *parties, size_t parties_length);

/*
 * Reconstructs a message of message_length bytes in the earlier form into `out` from the prefixes of
 * the parties, which are bytes in rising order; the prefixes stand one after another in the parties'
 * order. `value` is the number of prefix bytes used, d x m / (d - z) x N. Prefixes of the right length
 * always open: the call cannot tell a false byte from a true one, and sees the prefixes joined, as
 * sharing_reconstruct_padded does. Refusals 1 to 7, 9 and 10 (`out` has message_length bytes).
 */
SHARING_CALL
sharing_answer sharing_reconstruct(
    uint8_t n, uint8_t r, uint8_t z, const uint8_t *counts, size_t counts_length,
    size_t message_length, const uint8_t *parties, size_t parties_length,
    const uint8_t *prefixes, size_t prefixes_length, uint8_t *out, size_t out_length);

/* The same with the default scheme. Refusals 5 to 7, 9 and 10. */
SHARING_CALL
sharing_answer sharing_reconstruct_default(
    size_t message_length, const uint8_t *parties, size_t parties_length,
    const uint8_t *prefixes, size_t prefixes_length, uint8_t *out, size_t out_length);

/*
 * Reconstructs a range of a message of message_length bytes in the earlier form: the range_length bytes from
 * place `start` on, counted from 0, as sharing_reconstruct would write them. It takes row after row of the
 * prefixes, each of all blocks, until every place of a block that the range needs, or a copy of it, stands in
 * one of them. The rows from m / (d' - z) to m / (d - z) - 1 come first, d' being the count before d (from 0
 * if there is none), then in the same way those of d', and so on. `value` is the number of prefix bytes in
 * the rows taken, d x rows x N; an empty range takes none. It depends on the numbers and the lengths alone, so
 * that it may be asked for beforehand with any bytes, to know how many rows to wait for. Row j of block t is
 * byte j x N + t of a prefix. Rows that are not taken may hold anything: the call serves while they are still
 * on their way, but `prefixes` has its full length, and nobody writes there during the call. That a row which
 * is taken has come is the caller's to know. Whole blocks of a padded message can be opened as a message of
 * N x m bytes, or of 16,384 where that is more. Refusals 1 to 7, 15, 9 and 10 (`out` has range_length bytes),
 * in this order.
 */
SHARING_CALL
sharing_answer sharing_reconstruct_range(
    uint8_t n, uint8_t r, uint8_t z, const uint8_t *counts, size_t counts_length,
    size_t message_length, size_t start, size_t range_length, const uint8_t *parties, size_t parties_length,
    const uint8_t *prefixes, size_t prefixes_length, uint8_t *out, size_t out_length);

/* The same with the default scheme. Refusals 5 to 7, 15, 9 and 10. */
SHARING_CALL
sharing_answer sharing_reconstruct_range_default(
    size_t message_length, size_t start, size_t range_length, const uint8_t *parties, size_t parties_length,
    const uint8_t *prefixes, size_t prefixes_length, uint8_t *out, size_t out_length);

/*
 * Pools of keys. A pool is bytes that are drawn once, for many splits: each split takes the next ones, and no
 * byte is taken twice. The bytes stay with the caller, and beside them this record: how many there are, and
 * how many of them were taken, from the first on. What the caller owes besides, since nothing here can check
 * it:
 *
 * - The bytes are drawn evenly at random and kept as secret as the messages. The record starts as their
 *   number and 0.
 * - Every call is lent all bytes of the pool, and the same record. The bytes from the position on are as they
 *   were drawn, and serve for nothing else; those before it are used, no call reads them again, and they may,
 *   and should, be overwritten.
 * - The calls alone write the record, and nobody sets it back. Where a pool is stored, the new record is safe on
 *   the disk before the shares of a split are handed out; where it cannot be stored, they are thrown away.
 * - A pool is never copied to be used twice: both copies would take the same bytes. After fork() only one of the
 *   two processes goes on using it.
 * - No two threads use the record or the bytes at once.
 * - The record, `out` and what the call reads do not overlap.
 *
 * Bytes that are taken twice after all are not noticed, and who has shares of both messages learns from them
 * something of how these differ.
 */
typedef struct {
    size_t length;
    size_t position;
} sharing_key_pool;

/*
 * Splits a padded message as sharing_split_padded does, with keys from a pool: the N x z x b bytes from
 * pool_bytes[pool->position] on. When it is accepted, pool->position has moved by as many; when it is refused,
 * the record is as it was. `value` is the length of one share. Refusals 1 to 5, 16 and 10 (`out` has n x N x b
 * bytes), in this order.
 */
SHARING_CALL
sharing_answer sharing_split_padded_from_pool(
    sharing_key_pool *pool, uint8_t n, uint8_t r, uint8_t z, const uint8_t *counts, size_t counts_length,
    const uint8_t *message, size_t message_length, const uint8_t *pool_bytes, size_t pool_bytes_length,
    uint8_t *out, size_t out_length);

/* The same with the default scheme. Refusals 5, 16 and 10. */
SHARING_CALL
sharing_answer sharing_split_padded_from_pool_default(
    sharing_key_pool *pool, const uint8_t *message, size_t message_length,
    const uint8_t *pool_bytes, size_t pool_bytes_length, uint8_t *out, size_t out_length);

/*
 * The same of a message in the earlier form, with that form's N: as sharing_split. An empty message takes no
 * byte, and is accepted also where none is left. Refusals 1 to 5, 16 and 10.
 */
SHARING_CALL
sharing_answer sharing_split_from_pool(
    sharing_key_pool *pool, uint8_t n, uint8_t r, uint8_t z, const uint8_t *counts, size_t counts_length,
    const uint8_t *message, size_t message_length, const uint8_t *pool_bytes, size_t pool_bytes_length,
    uint8_t *out, size_t out_length);

/* The same with the default scheme. Refusals 5, 16 and 10. */
SHARING_CALL
sharing_answer sharing_split_from_pool_default(
    sharing_key_pool *pool, const uint8_t *message, size_t message_length,
    const uint8_t *pool_bytes, size_t pool_bytes_length, uint8_t *out, size_t out_length);

/*
 * A share that was rebuilt: the number of bytes in which the held copy differs from it. Beside refusal 18, where
 * `differing` is 0, `party` is the one whose share does not fit the others, which agree without it, or 0 where none
 * is named.
 */
typedef struct {
    uint64_t refusal;
    uint64_t differing;
    uint64_t party;
} sharing_rebuild_answer;

/*
 * Rebuilds the share of one party, exactly as it was split, from whole shares of at least n - r parties. The message
 * is written into no memory that was lent; its blocks stand in the call's own memory while it runs, as in an opening.
 * The parties are bytes in rising order, and their shares stand one after another in that order, N x b bytes each,
 * of a message of either form: N is shares_length / (parties_length x b), from 0 to 16,384 / m (rounded down) + 1.
 * The call sees the shares joined, so one too long and one too short by as much would pass, and make a wrong share:
 * that each has N x b bytes is the caller's to know. `party` may be one of them or not. `out` has N x b bytes and
 * receives its share. `held` is a copy of it that is in doubt, or empty: then there is none, and `differing` is 0.
 * Refusals 1 to 4, 7, 17, 9, 10 and 18, in this order.
 *
 * Shares agree if some blocks, whatever their padding, and some keys give them all. Those of n - r parties always
 * do: nothing is noticed there, and a wrong share among them makes a wrong one. With more, wrong shares are refused,
 * 18, as long as n - r right ones are among them. With n - r + 2 or more the refusal names a party exactly if all
 * others agree without its share. There is never more than one such party; where there is none, more than one share
 * is wrong. One wrong share is always named. Where several are wrong, mostly nobody is; but of c shares c - (n - r)
 * wrong ones that were made to fit together can have a right one named. Which of two messages is the right one is
 * not told: if all but one are shares of another message, that one is named.
 */
SHARING_CALL
sharing_rebuild_answer sharing_rebuild(
    uint8_t n, uint8_t r, uint8_t z, const uint8_t *counts, size_t counts_length,
    const uint8_t *parties, size_t parties_length, const uint8_t *shares, size_t shares_length,
    uint8_t party, const uint8_t *held, size_t held_length, uint8_t *out, size_t out_length);

/* The same with the default scheme. Refusals 7, 17, 9, 10 and 18. */
SHARING_CALL
sharing_rebuild_answer sharing_rebuild_default(
    const uint8_t *parties, size_t parties_length, const uint8_t *shares, size_t shares_length,
    uint8_t party, const uint8_t *held, size_t held_length, uint8_t *out, size_t out_length);

/*
 * Byte arithmetic of FIPS 197, section 4. Every byte is accepted. The sum, which is the difference too:
 * the exclusive or.
 */
SHARING_CALL_WITHOUT_POINTERS
uint8_t sharing_gf256_add(uint8_t a, uint8_t b);

/* The product, by tables. */
SHARING_CALL_WITHOUT_POINTERS
uint8_t sharing_gf256_mul(uint8_t a, uint8_t b);

/* The same product, by shifting. */
SHARING_CALL_WITHOUT_POINTERS
uint8_t sharing_gf256_mul_by_shifting(uint8_t a, uint8_t b);

/* Of an inverse: 1 and the byte, or 0 and 0 where there is none. */
typedef struct {
    uint64_t exists;
    uint64_t inverse;
} sharing_gf256_inverse_answer;

/*
 * The byte whose product with a is 1. 0 has none: exists is then 0, and so is inverse, which means nothing
 * there. Look at exists first.
 */
SHARING_CALL_WITHOUT_POINTERS
sharing_gf256_inverse_answer sharing_gf256_inverse(uint8_t a);

/*
 * Archives. An archive is one file that holds many shares, its entries. It starts with their count, a
 * number of two bytes and at most 4,096; a pair follows for each entry, its offset and its length, of two
 * bytes each; then come the entries, end to end. Numbers have their low byte first. Entries have at least
 * one byte and are numbered from 0. Offsets are from the file's start: the first entry starts right after
 * the pairs, each next one where the one before it ends, and the last one ends the file. An archive of no
 * entries is its count alone. The file may be longer than 65,535 bytes, as long as every offset and every
 * length fits into two.
 *
 * Where an entry stands: its offset and its length.
 */
typedef struct {
    uint64_t refusal;
    uint64_t offset;
    uint64_t length;
} sharing_archive_entry_answer;

/*
 * Writes an archive into `out`. The entries stand in `contents` end to end; their lengths, as many as
 * there are entries, are any numbers. `value` is the length of the file, 2 + 4 x lengths_length +
 * contents_length. Refusals 12, 13 and 10 (`out` has that length), in this order.
 */
SHARING_CALL
sharing_answer sharing_archive_write(
    const uint8_t *contents, size_t contents_length, const size_t *lengths, size_t lengths_length,
    uint8_t *out, size_t out_length);

/*
 * `value` is how many entries an archive has. The whole file is checked: its count, every pair and its
 * end. Refusals 12 and 13.
 */
SHARING_CALL
sharing_answer sharing_archive_count(const uint8_t *file, size_t file_length);

/*
 * Where the entry of this number stands. The whole file is checked as by sharing_archive_count, whatever
 * the number is. Refusals 12, 13 and 14.
 */
SHARING_CALL
sharing_archive_entry_answer sharing_archive_entry(const uint8_t *file, size_t file_length, size_t number);

/*
 * The old names of these calls and types, for sources from before they had the prefix. Each call is the one
 * with the prefix. In the library the old names are weak: a program that has another function of such a name,
 * and defines SHARING_NO_OLD_NAMES, links and calls its own. Where that function comes from another library,
 * name that one before this one to the linker, which takes the first that it finds.
 */
#ifndef SHARING_NO_OLD_NAMES
typedef sharing_gf256_inverse_answer gf256_inverse_answer;
typedef sharing_archive_entry_answer archive_entry_answer;
SHARING_CALL_WITHOUT_POINTERS
uint8_t gf256_add(uint8_t a, uint8_t b);
SHARING_CALL_WITHOUT_POINTERS
uint8_t gf256_mul(uint8_t a, uint8_t b);
SHARING_CALL_WITHOUT_POINTERS
uint8_t gf256_mul_by_shifting(uint8_t a, uint8_t b);
SHARING_CALL_WITHOUT_POINTERS
gf256_inverse_answer gf256_inverse(uint8_t a);
SHARING_CALL
sharing_answer archive_write(
    const uint8_t *contents, size_t contents_length, const size_t *lengths, size_t lengths_length,
    uint8_t *out, size_t out_length);
SHARING_CALL
sharing_answer archive_count(const uint8_t *file, size_t file_length);
SHARING_CALL
archive_entry_answer archive_entry(const uint8_t *file, size_t file_length, size_t number);
#endif

#undef SHARING_CALL
#undef SHARING_CALL_WITHOUT_POINTERS

#ifdef __cplusplus
}
#endif

#endif
