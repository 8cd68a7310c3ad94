/*
 * Lurdempos: the till version store, for C and C++.
 *
 * A store lives in two buffers that the caller lends: the pool, bytes, and the
 * table, 32-bit words in the machine's order. Nothing else is kept between
 * calls, nothing is allocated, and no call reads or writes past the lengths
 * given. A buffer's length counts its elements: bytes of a pool, image, stream
 * or output, words of a table or list. A buffer of length 0 needs a pointer that
 * is not null. The buffers of one call must not overlap. A call needs less than 512 KiB
 * of stack.
 *
 * Up to eight stores can stand on one disk, as a chain (lurdempos_chain_backup
 * and its like).
 *
 * Every call on a store but lay out names its user, right after the table: 0,
 * the owner, who may do everything, or 1 to 7, who may do with a till what the
 * owner has given them (lurdempos_set_rights). A number says who calls; that it
 * is so is for the caller to see to.
 *
 * Every answer begins with a refusal. 0 is an accepted call. A refused call
 * answers 0 in every other field and alters no buffer; a refused turn record
 * comes back as it was.
 *
 *    1  a capacity outside its range (lurdempos_table_length has the ranges); a
 *       chain of no store or more than eight, or lists of unequal count
 *    2  lay out: pool or table of another length than needed
 *    3  till number not below the tills; store number not below the stores
 *    4  image empty, or longer than block_bytes * blocks per image; a message
 *       of a till that sends only what is lacking whose lists do not fit the
 *       length or each other, or that has a mark other than 0 and 1; a closing
 *       of more than 16 images, or whose lists do not fit each other
 *    5  output shorter than the version; than the stream that a version is
 *       written as, or the image that a stream is read as
 *   10  pool and table are not a sound store; a chain with one that is not, or
 *       whose lengths do not add up
 *   11  the till holds its full number of versions
 *   12  its last given number is 65,535
 *   14  a segment to be placed finds no free record
 *   16  a segment to be placed finds no run
 *   17  a version number never given: 0, or above the till's last given
 *   18  a version number given before and no longer held: it was retired
 *   19  a segment that was sent and has another fingerprint, or a last one, sent
 *       or had, with a byte other than zero after the image's length
 *   20  a segment that was not sent and that the box does not have
 *   21  a backup after which a chain would occupy more cells than its limit:
 *       after all others
 *   22  an unknown user: above 7; in setting rights also the user whose rights
 *       they are, if it is 0 or above 7
 *   23  a user without the right: after 10, 3 and 22, before all others
 *   24  a stream too short or too long
 *   25  a stream with a length of 0 or above 65,536
 *   26  a stream with a bit on a null or missing block, or a byte other than
 *       zero after the length
 *   27  a till count outside 1 to 16, a mark at or above it, or a last till at
 *       or above it
 *   28  a day before that of the till's newest held version
 *   29  no held version of the till is as early as that day
 *   30  a price above 10,000
 *
 * 13 and 15 are no longer answered: any held version can be retired, and 17 and
 * 18 tell apart why a version is not held.
 *
 * Link with crates/lurdempos/out/liblurdempos.a, which `rt lib`, run in
 * crates/lurdempos, proves and builds.
 */
#ifndef LURDEMPOS_H
#define LURDEMPOS_H

#include <stdbool.h>
#include <stddef.h>
#include <stdint.h>

#ifdef __cplusplus
extern "C" {
#endif

#define LURDEMPOS_ACCEPTED 0
#define LURDEMPOS_CAPACITY_OUT_OF_RANGE 1
#define LURDEMPOS_WRONG_LENGTH 2
#define LURDEMPOS_NO_SUCH_TILL 3
#define LURDEMPOS_IMAGE_LENGTH 4
#define LURDEMPOS_OUTPUT_TOO_SHORT 5
#define LURDEMPOS_NOT_SOUND 10
#define LURDEMPOS_TILL_FULL 11
#define LURDEMPOS_NUMBERS_USED_UP 12
#define LURDEMPOS_NO_FREE_RECORD 14
#define LURDEMPOS_NO_RUN 16
#define LURDEMPOS_NEVER_GIVEN 17
#define LURDEMPOS_NO_LONGER_HELD 18
#define LURDEMPOS_OTHER_SEGMENT 19
#define LURDEMPOS_NO_SEGMENT 20
#define LURDEMPOS_OVER_LIMIT 21
#define LURDEMPOS_UNKNOWN_USER 22
#define LURDEMPOS_NO_RIGHT 23
#define LURDEMPOS_STREAM_SIZE 24
#define LURDEMPOS_STREAM_LENGTH 25
#define LURDEMPOS_STREAM_BITS 26
#define LURDEMPOS_NO_TURN 27
#define LURDEMPOS_EARLIER_DAY 28
#define LURDEMPOS_NONE_SO_EARLY 29
#define LURDEMPOS_PRICE 30

/* The bytes that the longest stream has: that of an image of 65,536 bytes
 * without a block of zeros. */
#define LURDEMPOS_LONGEST_STREAM 65668

/* The bytes of a fingerprint. */
#define LURDEMPOS_FINGERPRINT 20

/* The most images that one closing can have. */
#define LURDEMPOS_MOST_IMAGES 16

/* The most tills that a store can have. */
#define LURDEMPOS_MOST_TILLS 16

/* The most stores that a chain can have. */
#define LURDEMPOS_MOST_STORES 8

/* The words that a table of these capacities has. */
struct lurdempos_table_length_answer {
    uint32_t refusal;
    uint32_t words;
};

struct lurdempos_lay_out_answer {
    uint32_t refusal;
};

/* The number of the new version. */
struct lurdempos_backup_answer {
    uint32_t refusal;
    uint32_t version;
};

/* For each image in order its own refusal and the number of its new version; one
 * of the two is 0. Places past the last image are 0, and all are if the whole
 * call is refused. */
struct lurdempos_backup_all_answer {
    uint32_t refusal;
    uint32_t refusals[LURDEMPOS_MOST_IMAGES];
    uint32_t versions[LURDEMPOS_MOST_IMAGES];
};

/* The version's length in bytes; the most indirect pointers followed for any
 * one block. */
struct lurdempos_restore_answer {
    uint32_t refusal;
    uint32_t length;
    uint32_t hops;
};

/* The retired version's length in bytes. */
struct lurdempos_retire_answer {
    uint32_t refusal;
    uint32_t length;
};

/* The oldest and the newest held number, 0 and 0 if none is held; the last
 * number given, 0 before the first. */
struct lurdempos_listing_answer {
    uint32_t refusal;
    uint32_t oldest;
    uint32_t newest;
    uint32_t last;
};

/* The number of the version that was looked up by its day. */
struct lurdempos_version_on_answer {
    uint32_t refusal;
    uint32_t version;
};

/* Occupied cells, records in use, and the sum of all counts. */
struct lurdempos_tally_answer {
    uint32_t refusal;
    uint32_t cells;
    uint32_t records;
    uint32_t counts;
};

/* Each till's sum, in tenths of a cent; 0 past the last till, and all are if the
 * call is refused. */
struct lurdempos_bill_answer {
    uint32_t refusal;
    uint32_t sums[LURDEMPOS_MOST_TILLS];
};

/* The stream's length in bytes. */
struct lurdempos_write_stream_answer {
    uint32_t refusal;
    uint32_t length;
};

/* The image's length in bytes. */
struct lurdempos_read_stream_answer {
    uint32_t refusal;
    uint32_t length;
};

struct lurdempos_offer_answer {
    uint32_t refusal;
};

struct lurdempos_set_rights_answer {
    uint32_t refusal;
};

/* A SHA-1. Its 20 bytes are those of the five words, the highest byte of each
 * first. */
struct lurdempos_digest {
    uint32_t h0;
    uint32_t h1;
    uint32_t h2;
    uint32_t h3;
    uint32_t h4;
};

/* A turn record: the tills present, 1 to 16; the mask of those waiting, bit t
 * for till t; the till served last. */
struct lurdempos_turn_record {
    uint32_t tills;
    uint32_t waiting;
    uint32_t last;
};

/* Whether a till is served, and which; 0 if none is. */
struct lurdempos_turn_answer {
    uint32_t refusal;
    bool served;
    uint32_t till;
};

/* The answer of a turn, and the record after it. */
struct lurdempos_turn_result {
    struct lurdempos_turn_answer answer;
    struct lurdempos_turn_record turn;
};

/* Table length, from the eight capacities that a store keeps for good:
 *
 *   tills            1 to 16
 *   versions         per till, 1 to 64
 *   blocks           per image, 1 to 65,536 / block_bytes
 *   records          of segments, 1 to 4,096
 *   cells            1 to 32,768
 *   block_bytes      of a block and of a cell, 64, 128, 256 or 512
 *   segment_blocks   blocks of a segment, 4, 8 or 16
 *   rebuild_percent  0 to 100: a record that loses this part of the blocks it
 *                    holds, or more, has the others copied together
 *
 * Stores from before the last three could be chosen have 64, 8 and 20; they go
 * on as they are. A table has at most 1,195,080 words.
 * Refusals: 1. */
struct lurdempos_table_length_answer lurdempos_table_length(
    uint32_t tills, uint32_t versions, uint32_t blocks, uint32_t records,
    uint32_t cells, uint32_t block_bytes, uint32_t segment_blocks,
    uint32_t rebuild_percent);

/* Makes an empty store in a pool of block_bytes * cells bytes and a table of
 * the words that lurdempos_table_length answers, whatever they had before.
 * Refusals: 1, 2. */
struct lurdempos_lay_out_answer lurdempos_lay_out(
    uint8_t *pool, size_t pool_bytes, uint32_t *table, size_t table_words,
    uint32_t tills, uint32_t versions, uint32_t blocks, uint32_t records,
    uint32_t cells, uint32_t block_bytes, uint32_t segment_blocks,
    uint32_t rebuild_percent);

/* Keeps the image as the till's newest version. Its day is that of the till's
 * newest held version until then, or 0 if none is held; so it is with every call
 * that keeps an image, but for lurdempos_backup_dated.
 * Refusals: 10, 3, 22, 23 without the right to back up, 4, 11, 12, then, at the
 * first segment that cannot be placed, 14 before 16. */
struct lurdempos_backup_answer lurdempos_backup(
    uint8_t *pool, size_t pool_bytes, uint32_t *table, size_t table_words,
    uint32_t user, uint32_t till, const uint8_t *image, size_t image_bytes);

/* The same with a day, any number of 32 bits: what it counts, and from when, is
 * for the caller to say. It must not be before the day of the till's newest held
 * version, so that the days of a till's versions never fall from an older one to
 * a newer one. Versions from before there were days have day 0.
 * Refusals: 10, 3, 22, 23 without the right to back up, 4, 11, 12, 28, then 14
 * and 16 as in a backup. */
struct lurdempos_backup_answer lurdempos_backup_dated(
    uint8_t *pool, size_t pool_bytes, uint32_t *table, size_t table_words,
    uint32_t user, uint32_t till, uint32_t day, const uint8_t *image,
    size_t image_bytes);

/* A closing of several tills: keeps up to LURDEMPOS_MOST_IMAGES images, each as
 * lurdempos_backup keeps one, in their order. Image i is the next lengths[i] of
 * the bytes, and till tills[i]'s newest version; a till may have several. An
 * image that is refused does not stop the later ones: answers and store are
 * those of single backups made in this order, but the store is checked once.
 * None at all is accepted.
 * Refusals of the whole: 10, then 4 for too many images, lists of unequal count,
 * or lengths that do not add up to images_bytes. Each image's own: 3, 22, 23, 4,
 * 11, 12, 14, 16, as in a backup; so the user's right is asked for each till. */
struct lurdempos_backup_all_answer lurdempos_backup_all(
    uint8_t *pool, size_t pool_bytes, uint32_t *table, size_t table_words,
    uint32_t user, const uint32_t *tills, size_t tills_count,
    const uint32_t *lengths, size_t lengths_count, const uint8_t *images,
    size_t images_bytes);

/* Writes the version to the front of the output; later bytes stay.
 * Refusals: 10, 3, 22, 23 without the right to restore, 17 or 18, 5. */
struct lurdempos_restore_answer lurdempos_restore(
    const uint8_t *pool, size_t pool_bytes, const uint32_t *table,
    size_t table_words, uint32_t user, uint32_t till, uint32_t version,
    uint8_t *output, size_t output_bytes);

/* Takes a held version away, whichever it is. The others keep their numbers,
 * so that those held may have gaps; numbers go on.
 * Refusals: 10, 3, 22, 23 without the right to retire, 17 or 18. */
struct lurdempos_retire_answer lurdempos_retire(
    uint8_t *pool, size_t pool_bytes, uint32_t *table, size_t table_words,
    uint32_t user, uint32_t till, uint32_t version);

/* Refusals: 10, 3, 22, 23 without the right to list. */
struct lurdempos_listing_answer lurdempos_listing(
    const uint8_t *pool, size_t pool_bytes, const uint32_t *table,
    size_t table_words, uint32_t user, uint32_t till);

/* The version that a till had on a day: of its held versions whose day is that
 * one or an earlier one, the newest, which is the one with the highest number.
 * Refusals: 10, 3, 22, 23 without the right to list, 29. */
struct lurdempos_version_on_answer lurdempos_version_on(
    const uint8_t *pool, size_t pool_bytes, const uint32_t *table,
    size_t table_words, uint32_t user, uint32_t till, uint32_t day);

/* The owner's only.
 * Refusals: 10, 22, 23. */
struct lurdempos_tally_answer lurdempos_tally(
    const uint8_t *pool, size_t pool_bytes, const uint32_t *table,
    size_t table_words, uint32_t user);

/* What each till has to pay at a price per occupied cell, in tenths of a cent:
 * every cell's price is divided among the tills with a direct pointer to it, the
 * whole quotient each, and the tenths that remain one each to the lowest of them.
 * The sums together are the price times the tally's cells. The owner's only.
 * Refusals: 10, 22, 23, 30. */
struct lurdempos_bill_answer lurdempos_bill(
    const uint8_t *pool, size_t pool_bytes, const uint32_t *table,
    size_t table_words, uint32_t user, uint32_t price);

/* Writes the version to the front of the output as a stream, for another box;
 * later bytes stay. A stream is the image's length in four bytes, lowest first,
 * then for each eight blocks of 64 bytes a bit map byte, bit 0 for the first of
 * them, and only the blocks whose bit stands. Blocks of zeros have no bit,
 * missing blocks of the last eight neither. It does not depend on the store's
 * block_bytes and segment_blocks. It has at most LURDEMPOS_LONGEST_STREAM bytes.
 * Refusals: 10, 3, 22, 23 without the right to restore, 17 or 18, 5. */
struct lurdempos_write_stream_answer lurdempos_write_stream(
    const uint8_t *pool, size_t pool_bytes, const uint32_t *table,
    size_t table_words, uint32_t user, uint32_t till, uint32_t version,
    uint8_t *output, size_t output_bytes);

/* Reads a stream, whole and nothing else; its image goes to the front of the
 * output, later bytes stay. It needs no store.
 * Refusals: 24 for a stream without a length, 25, 5, then the first of 24 and
 * 26 that is met in the stream's order, where a block cut short is 24 whatever
 * its bytes, and last 24 for bytes behind the stream's end. */
struct lurdempos_read_stream_answer lurdempos_read_stream(
    const uint8_t *stream, size_t stream_bytes, uint8_t *output,
    size_t output_bytes);

/* The first message of a till that sends only what the box lacks: 20 bytes, the
 * SHA-1, of each segment of its image, the last segment filled up with zeros.
 * Each mark becomes 1 if the box has that segment, else 0: zeros, or what a
 * record has that no position was removed from and that has no cell of 255s.
 * There are as many marks as fingerprints, at least one, and no more than the
 * longest image has segments. It changes nothing but the marks.
 * Refusals: 10, 3, 22, 23 without the right to back up, 4. */
struct lurdempos_offer_answer lurdempos_offer(
    const uint8_t *pool, size_t pool_bytes, const uint32_t *table,
    size_t table_words, uint32_t user, uint32_t till,
    const uint8_t *fingerprints, size_t fingerprints_bytes, uint8_t *marks,
    size_t marks_bytes);

/* The second message: the image's length, all fingerprints, a mark for each
 * segment, 1 if it follows and else 0, and those segments one after the other,
 * each in full. One that does not follow is taken, by its fingerprint, from
 * zeros, from the lowest that was sent before it in this call or from the lowest
 * record, in this order. The image so put together is kept as lurdempos_backup
 * keeps one.
 * Refusals: 10, 3, 22, 23 without the right to back up, 4, 11, 12, then, at the
 * first segment that has either, 19 before 20, then 14 and 16 as in a backup. */
struct lurdempos_backup_answer lurdempos_backup_sent(
    uint8_t *pool, size_t pool_bytes, uint32_t *table, size_t table_words,
    uint32_t user, uint32_t till, uint32_t length, const uint8_t *fingerprints,
    size_t fingerprints_bytes, const uint8_t *marks, size_t marks_bytes,
    const uint8_t *segments, size_t segments_bytes);

/* Sets what a user, the subject, 1 to 7, may do with a till: list it and look its
 * versions up by day, back up, by any call that keeps an image or offers one,
 * restore, or write a stream, and retire. It changes nothing else. A laid-out
 * store gives no such rights, and neither does one from before there were users.
 * The owner's only.
 * Refusals: 10, 3, 22 for either user, 23. */
struct lurdempos_set_rights_answer lurdempos_set_rights(
    const uint8_t *pool, size_t pool_bytes, uint32_t *table,
    size_t table_words, uint32_t user, uint32_t subject, uint32_t till,
    bool list, bool back_up, bool restore, bool retire);

/* A chain: up to LURDEMPOS_MOST_STORES stores on one disk. Their pools stand end
 * to end in one buffer, their tables in another, and two lists tell the bytes of
 * each pool and the words of each table, in the stores' order. Stores are laid
 * out one by one, and each has its own capacities. The calls that follow name
 * one store, counted from 0: they answer and leave it as the call without
 * `chain` does on that store alone, and the others keep every byte and word.
 * Before they do, they check all stores.
 *
 * Those that back up bring a limit on the cells that are occupied over all
 * stores: they are refused with 21, after all their other refusals, if the sum
 * at their end would be above it. The cells that are left after removal count.
 * No limit refuses a retire, also where the sum is above it already.
 *
 * Each begins with 1 for no store, more than eight, or lists of unequal count;
 * then 10 for lengths that do not add up to their buffer, or any unsound store;
 * then 3 for a store number that is not below the stores. */

/* Refusals: 1, 10, 3, then as lurdempos_backup, then 21. */
struct lurdempos_backup_answer lurdempos_chain_backup(
    uint8_t *pools, size_t pools_bytes, uint32_t *tables, size_t tables_words,
    const uint32_t *pool_lengths, size_t pool_lengths_count,
    const uint32_t *table_lengths, size_t table_lengths_count, uint32_t store,
    uint32_t limit, uint32_t user, uint32_t till, const uint8_t *image,
    size_t image_bytes);

/* Refusals: 1, 10, 3, then as lurdempos_backup_dated, then 21. */
struct lurdempos_backup_answer lurdempos_chain_backup_dated(
    uint8_t *pools, size_t pools_bytes, uint32_t *tables, size_t tables_words,
    const uint32_t *pool_lengths, size_t pool_lengths_count,
    const uint32_t *table_lengths, size_t table_lengths_count, uint32_t store,
    uint32_t limit, uint32_t user, uint32_t till, uint32_t day,
    const uint8_t *image, size_t image_bytes);

/* What only another store has is not had.
 * Refusals: 1, 10, 3, then as lurdempos_backup_sent, then 21. */
struct lurdempos_backup_answer lurdempos_chain_backup_sent(
    uint8_t *pools, size_t pools_bytes, uint32_t *tables, size_t tables_words,
    const uint32_t *pool_lengths, size_t pool_lengths_count,
    const uint32_t *table_lengths, size_t table_lengths_count, uint32_t store,
    uint32_t limit, uint32_t user, uint32_t till, uint32_t length,
    const uint8_t *fingerprints, size_t fingerprints_bytes,
    const uint8_t *marks, size_t marks_bytes, const uint8_t *segments,
    size_t segments_bytes);

/* Each image is held against the limit by itself, with the sum as it then is.
 * Refusals of the whole: 1, 10, 3, 4. Each image's own: as in
 * lurdempos_backup_all, then 21. */
struct lurdempos_backup_all_answer lurdempos_chain_backup_all(
    uint8_t *pools, size_t pools_bytes, uint32_t *tables, size_t tables_words,
    const uint32_t *pool_lengths, size_t pool_lengths_count,
    const uint32_t *table_lengths, size_t table_lengths_count, uint32_t store,
    uint32_t limit, uint32_t user, const uint32_t *tills, size_t tills_count,
    const uint32_t *lengths, size_t lengths_count, const uint8_t *images,
    size_t images_bytes);

/* Refusals: 1, 10, 3, then as lurdempos_restore. */
struct lurdempos_restore_answer lurdempos_chain_restore(
    const uint8_t *pools, size_t pools_bytes, const uint32_t *tables,
    size_t tables_words, const uint32_t *pool_lengths,
    size_t pool_lengths_count, const uint32_t *table_lengths,
    size_t table_lengths_count, uint32_t store, uint32_t user, uint32_t till,
    uint32_t version, uint8_t *output, size_t output_bytes);

/* Refusals: 1, 10, 3, then as lurdempos_retire. */
struct lurdempos_retire_answer lurdempos_chain_retire(
    uint8_t *pools, size_t pools_bytes, uint32_t *tables, size_t tables_words,
    const uint32_t *pool_lengths, size_t pool_lengths_count,
    const uint32_t *table_lengths, size_t table_lengths_count, uint32_t store,
    uint32_t user, uint32_t till, uint32_t version);

/* Refusals: 1, 10, 3, then as lurdempos_listing. */
struct lurdempos_listing_answer lurdempos_chain_listing(
    const uint8_t *pools, size_t pools_bytes, const uint32_t *tables,
    size_t tables_words, const uint32_t *pool_lengths,
    size_t pool_lengths_count, const uint32_t *table_lengths,
    size_t table_lengths_count, uint32_t store, uint32_t user, uint32_t till);

/* Refusals: 1, 10, 3, then as lurdempos_version_on. */
struct lurdempos_version_on_answer lurdempos_chain_version_on(
    const uint8_t *pools, size_t pools_bytes, const uint32_t *tables,
    size_t tables_words, const uint32_t *pool_lengths,
    size_t pool_lengths_count, const uint32_t *table_lengths,
    size_t table_lengths_count, uint32_t store, uint32_t user, uint32_t till,
    uint32_t day);

/* The named store's.
 * Refusals: 1, 10, 3, then as lurdempos_tally. */
struct lurdempos_tally_answer lurdempos_chain_tally(
    const uint8_t *pools, size_t pools_bytes, const uint32_t *tables,
    size_t tables_words, const uint32_t *pool_lengths,
    size_t pool_lengths_count, const uint32_t *table_lengths,
    size_t table_lengths_count, uint32_t store, uint32_t user);

/* The named store's.
 * Refusals: 1, 10, 3, then as lurdempos_bill. */
struct lurdempos_bill_answer lurdempos_chain_bill(
    const uint8_t *pools, size_t pools_bytes, const uint32_t *tables,
    size_t tables_words, const uint32_t *pool_lengths,
    size_t pool_lengths_count, const uint32_t *table_lengths,
    size_t table_lengths_count, uint32_t store, uint32_t user, uint32_t price);

/* Refusals: 1, 10, 3, then as lurdempos_write_stream. */
struct lurdempos_write_stream_answer lurdempos_chain_write_stream(
    const uint8_t *pools, size_t pools_bytes, const uint32_t *tables,
    size_t tables_words, const uint32_t *pool_lengths,
    size_t pool_lengths_count, const uint32_t *table_lengths,
    size_t table_lengths_count, uint32_t store, uint32_t user, uint32_t till,
    uint32_t version, uint8_t *output, size_t output_bytes);

/* What only another store has is not marked.
 * Refusals: 1, 10, 3, then as lurdempos_offer. */
struct lurdempos_offer_answer lurdempos_chain_offer(
    const uint8_t *pools, size_t pools_bytes, const uint32_t *tables,
    size_t tables_words, const uint32_t *pool_lengths,
    size_t pool_lengths_count, const uint32_t *table_lengths,
    size_t table_lengths_count, uint32_t store, uint32_t user, uint32_t till,
    const uint8_t *fingerprints, size_t fingerprints_bytes, uint8_t *marks,
    size_t marks_bytes);

/* Refusals: 1, 10, 3, then as lurdempos_set_rights. */
struct lurdempos_set_rights_answer lurdempos_chain_set_rights(
    const uint8_t *pools, size_t pools_bytes, uint32_t *tables,
    size_t tables_words, const uint32_t *pool_lengths,
    size_t pool_lengths_count, const uint32_t *table_lengths,
    size_t table_lengths_count, uint32_t store, uint32_t user,
    uint32_t subject, uint32_t till, bool list, bool back_up, bool restore,
    bool retire);

/* The SHA-1 (RFC 3174) of a message, for a till's fingerprints. It needs no
 * store and refuses nothing. */
struct lurdempos_digest lurdempos_sha1(const uint8_t *message,
                                       size_t message_bytes);

/* A turn of tills that wait for one line; it has nothing to do with a store.
 * Serves the first waiting till after the last one, round the circle, if one
 * waits: it becomes the last and loses its mark. Otherwise the record stays.
 * Between two turns marks of tills present may be set and taken away; if till
 * count and last till stay as the turn before left them, a till that keeps
 * waiting is served within as many turns as there are tills.
 * Refusals: 27. */
struct lurdempos_turn_result lurdempos_turn(struct lurdempos_turn_record turn);

#ifdef __cplusplus
}
#endif

#endif
