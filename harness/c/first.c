/*
 * A first image kept and restored, moved as a stream, the next sent without
 * what the box has, a closing of both tills, versions by their day, a clerk
 * with rights on one till, the bill, a chain of two stores, and two turns on the
 * line, from C (and, since it compiles as both, from C++). Prints what the calls
 * answer; ends with status 1 at the first answer that is not as expected.
 */
#include "lurdempos.h"

#include <stdio.h>
#include <string.h>

#define TILLS 2
#define VERSIONS 4
#define BLOCKS 16
#define RECORDS 8
#define CELLS 32
#define BLOCK_BYTES 128
#define SEGMENT_BLOCKS 4
#define REBUILD_PERCENT 50
#define TABLE_WORDS 512
#define OWNER 0
#define CLERK 3

static uint8_t pool[CELLS * BLOCK_BYTES];
static uint32_t table[TABLE_WORDS];

static int expect(const char *call, uint32_t refusal, uint32_t expected)
{
    printf("%s: refusal %u\n", call, (unsigned)refusal);
    return refusal == expected;
}

static struct lurdempos_table_length_answer length_with(uint32_t block_bytes)
{
    return lurdempos_table_length(TILLS, VERSIONS, BLOCKS, RECORDS, CELLS,
                                  block_bytes, SEGMENT_BLOCKS, REBUILD_PERCENT);
}

/* Tills 0 and 2 of three wait, and 0 was served last: 2 comes first. A mark of
 * a till 3 is refused. */
static int turns(void)
{
    struct lurdempos_turn_record record = {3, 5, 0};
    struct lurdempos_turn_result result = lurdempos_turn(record);

    if (!expect("turn", result.answer.refusal, LURDEMPOS_ACCEPTED)
        || !result.answer.served || result.answer.till != 2
        || result.turn.tills != 3 || result.turn.waiting != 1
        || result.turn.last != 2)
        return 0;
    result.turn.waiting = 9;
    result = lurdempos_turn(result.turn);
    return expect("turn, a mark of a till that is not there",
                  result.answer.refusal, LURDEMPOS_NO_TURN)
        && !result.answer.served && result.answer.till == 0
        && result.turn.tills == 3 && result.turn.waiting == 9
        && result.turn.last == 2;
}

/* Till 1's version 1, 500 letters, as a stream: the length, a map of eight
 * blocks of 64 bytes, whatever the store's, and these blocks. It is read back,
 * and refused where it is cut. */
static int moved(size_t words, const uint8_t *image, uint32_t length)
{
    static uint8_t stream[LURDEMPOS_LONGEST_STREAM], output[512];
    struct lurdempos_write_stream_answer wrote = lurdempos_write_stream(
        pool, sizeof pool, table, words, OWNER, 1, 1, stream, sizeof stream);
    struct lurdempos_read_stream_answer read;

    if (!expect("write stream", wrote.refusal, LURDEMPOS_ACCEPTED)
        || wrote.length != 4 + 1 + 8 * 64 || stream[0] != length % 256
        || stream[1] != length / 256 || stream[4] != 255)
        return 0;
    read = lurdempos_read_stream(stream, wrote.length, output, sizeof output);
    if (!expect("read stream", read.refusal, LURDEMPOS_ACCEPTED)
        || read.length != length || memcmp(image, output, length) != 0)
        return 0;
    read = lurdempos_read_stream(stream, 100, output, sizeof output);
    return expect("read stream, cut short", read.refusal, LURDEMPOS_STREAM_SIZE)
        && read.length == 0;
}

static void print_of(const uint8_t *segment, size_t bytes, uint8_t *print)
{
    struct lurdempos_digest d = lurdempos_sha1(segment, bytes);
    uint32_t words[5] = {d.h0, d.h1, d.h2, d.h3, d.h4};
    int i;

    for (i = 0; i < LURDEMPOS_FINGERPRINT; i++)
        print[i] = (uint8_t)(words[i / 4] >> (24 - 8 * (i % 4)));
}

/* Till 0's version 1 is a segment of 512 letters, its next image that segment
 * and one more letter. The box has the first and asks for the second; without
 * it, and with another one in its place, it refuses. */
static int sent(size_t words)
{
    static uint8_t image[2 * 512], output[1024];
    uint8_t prints[2 * LURDEMPOS_FINGERPRINT], marks[2] = {7, 7};
    uint8_t none[2] = {0, 0}, second[2] = {0, 1};
    struct lurdempos_offer_answer offered;
    struct lurdempos_backup_answer backup;
    struct lurdempos_restore_answer restored;

    memset(image, 'b', 512);
    image[512] = 'z';
    backup = lurdempos_backup(pool, sizeof pool, table, words, OWNER, 0, image,
                              512);
    if (!expect("backup", backup.refusal, LURDEMPOS_ACCEPTED))
        return 0;
    print_of(image, 512, prints);
    print_of(image + 512, 512, prints + LURDEMPOS_FINGERPRINT);
    offered = lurdempos_offer(pool, sizeof pool, table, words, OWNER, 0,
                              prints, 39, marks, 2);
    if (!expect("offer, part of a fingerprint", offered.refusal,
                LURDEMPOS_IMAGE_LENGTH)
        || marks[0] != 7 || marks[1] != 7)
        return 0;
    offered = lurdempos_offer(pool, sizeof pool, table, words, OWNER, 0, prints,
                              sizeof prints, marks, 2);
    if (!expect("offer", offered.refusal, LURDEMPOS_ACCEPTED) || marks[0] != 1
        || marks[1] != 0)
        return 0;
    backup = lurdempos_backup_sent(pool, sizeof pool, table, words, OWNER, 0,
                                   513,
                                   prints, sizeof prints, none, 2, image, 0);
    if (!expect("backup of what is sent, one lacking", backup.refusal,
                LURDEMPOS_NO_SEGMENT))
        return 0;
    backup = lurdempos_backup_sent(pool, sizeof pool, table, words, OWNER, 0,
                                   513,
                                   prints, sizeof prints, second, 2, image, 512);
    if (!expect("backup of what is sent, another segment", backup.refusal,
                LURDEMPOS_OTHER_SEGMENT)
        || backup.version != 0)
        return 0;
    backup = lurdempos_backup_sent(pool, sizeof pool, table, words, OWNER, 0,
                                   513, prints, sizeof prints, second, 2,
                                   image + 512, 512);
    if (!expect("backup of what is sent", backup.refusal, LURDEMPOS_ACCEPTED)
        || backup.version != 2)
        return 0;
    restored = lurdempos_restore(pool, sizeof pool, table, words, OWNER, 0, 2,
                                 output, sizeof output);
    return expect("restore", restored.refusal, LURDEMPOS_ACCEPTED)
        && restored.length == 513 && memcmp(image, output, 513) == 0;
}

/* Both tills close, till 0 twice, and a till 2 that is not there: its image is
 * refused and the others are kept. Lengths that add up in 32 bits alone are
 * refused as a whole. */
static int closed(size_t words)
{
    static uint8_t images[1000], output[1024];
    uint32_t tills[4] = {0, 2, 1, 0}, lengths[4] = {300, 100, 500, 100};
    struct lurdempos_backup_all_answer all;
    struct lurdempos_restore_answer restored;

    memset(images, 'c', sizeof images);
    all = lurdempos_backup_all(pool, sizeof pool, table, words, OWNER, tills, 4,
                               lengths, 4, images, sizeof images);
    if (!expect("closing", all.refusal, LURDEMPOS_ACCEPTED)
        || !expect("closing, till 2", all.refusals[1], LURDEMPOS_NO_SUCH_TILL)
        || all.refusals[0] != 0 || all.refusals[2] != 0 || all.refusals[3] != 0
        || all.versions[0] != 3 || all.versions[1] != 0
        || all.versions[2] != 3 || all.versions[3] != 4
        || all.refusals[4] != 0 || all.versions[15] != 0)
        return 0;
    restored = lurdempos_restore(pool, sizeof pool, table, words, OWNER, 1, 3,
                                 output, sizeof output);
    if (!expect("restore", restored.refusal, LURDEMPOS_ACCEPTED)
        || restored.length != 500 || memcmp(images, output, 500) != 0)
        return 0;
    lengths[1] = UINT32_MAX;
    lengths[2] = 601;
    all = lurdempos_backup_all(pool, sizeof pool, table, words, OWNER, tills, 4,
                               lengths, 4, images, sizeof images);
    return expect("closing, lengths that do not add up", all.refusal,
                  LURDEMPOS_IMAGE_LENGTH)
        && all.versions[0] == 0;
}

static int gone(size_t words, uint32_t version)
{
    struct lurdempos_retire_answer answer =
        lurdempos_retire(pool, sizeof pool, table, words, OWNER, 0, version);

    return expect("retire", answer.refusal, LURDEMPOS_ACCEPTED);
}

/* Till 0's version 4 has no day, so that it has day 0; version 5 has day 20 and
 * version 6, which is kept without one, takes it. A day before 20 is refused,
 * and a lookup finds the newest that is not after its day. */
static int dated(size_t words)
{
    static uint8_t image[200];
    struct lurdempos_backup_answer backup;
    struct lurdempos_version_on_answer found;

    memset(image, 'd', sizeof image);
    if (!gone(words, 1) || !gone(words, 2))
        return 0;
    backup = lurdempos_backup_dated(pool, sizeof pool, table, words, OWNER, 0,
                                    20, image, sizeof image);
    if (!expect("backup with a day", backup.refusal, LURDEMPOS_ACCEPTED)
        || backup.version != 5)
        return 0;
    backup = lurdempos_backup_dated(pool, sizeof pool, table, words, OWNER, 0,
                                    19, image, sizeof image);
    if (!expect("backup with an earlier day", backup.refusal,
                LURDEMPOS_EARLIER_DAY)
        || backup.version != 0)
        return 0;
    backup = lurdempos_backup(pool, sizeof pool, table, words, OWNER, 0, image,
                              100);
    if (!expect("backup", backup.refusal, LURDEMPOS_ACCEPTED)
        || backup.version != 6)
        return 0;
    found = lurdempos_version_on(pool, sizeof pool, table, words, OWNER, 0, 19);
    if (!expect("version on day 19", found.refusal, LURDEMPOS_ACCEPTED)
        || found.version != 4)
        return 0;
    found = lurdempos_version_on(pool, sizeof pool, table, words, OWNER, 0,
                                 UINT32_MAX);
    if (!expect("version on the last day", found.refusal, LURDEMPOS_ACCEPTED)
        || found.version != 6)
        return 0;
    if (!gone(words, 3) || !gone(words, 4))
        return 0;
    found = lurdempos_version_on(pool, sizeof pool, table, words, OWNER, 0, 19);
    return expect("version on day 19, none so early", found.refusal,
                  LURDEMPOS_NONE_SO_EARLY)
        && found.version == 0;
}

static int listed(const char *call, size_t words, uint32_t user, uint32_t till,
                  uint32_t expected)
{
    struct lurdempos_listing_answer answer =
        lurdempos_listing(pool, sizeof pool, table, words, user, till);

    return expect(call, answer.refusal, expected);
}

/* The clerk may list and restore till 1 once the owner says so, and nothing
 * else; a user 8 is not known, and nobody changes what the owner may do. */
static int entitled(size_t words)
{
    static uint8_t image[64], output[1024];
    struct lurdempos_set_rights_answer set;
    struct lurdempos_restore_answer restored;
    struct lurdempos_backup_answer backup;
    struct lurdempos_tally_answer tally;

    if (!listed("listing, no right", words, CLERK, 1, LURDEMPOS_NO_RIGHT)
        || !listed("listing, unknown user", words, 8, 1, LURDEMPOS_UNKNOWN_USER)
        || !listed("listing, no till", words, 8, 2, LURDEMPOS_NO_SUCH_TILL))
        return 0;
    set = lurdempos_set_rights(pool, sizeof pool, table, words, CLERK, CLERK, 1,
                               true, false, true, false);
    if (!expect("set rights, not the owner", set.refusal, LURDEMPOS_NO_RIGHT))
        return 0;
    set = lurdempos_set_rights(pool, sizeof pool, table, words, OWNER, OWNER, 1,
                               true, false, true, false);
    if (!expect("set rights of the owner", set.refusal, LURDEMPOS_UNKNOWN_USER))
        return 0;
    set = lurdempos_set_rights(pool, sizeof pool, table, words, OWNER, CLERK, 1,
                               true, false, true, false);
    if (!expect("set rights", set.refusal, LURDEMPOS_ACCEPTED)
        || !listed("listing", words, CLERK, 1, LURDEMPOS_ACCEPTED)
        || !listed("listing of another till", words, CLERK, 0,
                   LURDEMPOS_NO_RIGHT))
        return 0;
    restored = lurdempos_restore(pool, sizeof pool, table, words, CLERK, 1, 1,
                                 output, sizeof output);
    backup = lurdempos_backup(pool, sizeof pool, table, words, CLERK, 1, image,
                              sizeof image);
    tally = lurdempos_tally(pool, sizeof pool, table, words, CLERK);
    return expect("restore", restored.refusal, LURDEMPOS_ACCEPTED)
        && restored.length == 500
        && expect("backup, no right", backup.refusal, LURDEMPOS_NO_RIGHT)
        && expect("tally, not the owner", tally.refusal, LURDEMPOS_NO_RIGHT)
        && tally.cells == 0;
}

/* The owner's bill is the price of the cells that the tally counts, 0 past the
 * last till. */
static int billed(size_t words)
{
    struct lurdempos_tally_answer tally =
        lurdempos_tally(pool, sizeof pool, table, words, OWNER);
    struct lurdempos_bill_answer bill =
        lurdempos_bill(pool, sizeof pool, table, words, OWNER, 25);
    uint32_t total = 0;
    int till;

    for (till = 0; till < LURDEMPOS_MOST_TILLS; till++)
        total += bill.sums[till];
    if (!expect("bill", bill.refusal, LURDEMPOS_ACCEPTED) || tally.cells == 0
        || total != 25 * tally.cells
        || total != bill.sums[0] + bill.sums[1])
        return 0;
    bill = lurdempos_bill(pool, sizeof pool, table, words, CLERK, 10001);
    if (!expect("bill, not the owner", bill.refusal, LURDEMPOS_NO_RIGHT))
        return 0;
    bill = lurdempos_bill(pool, sizeof pool, table, words, OWNER, 10001);
    return expect("bill, price too high", bill.refusal, LURDEMPOS_PRICE)
        && bill.sums[0] == 0;
}

/* Two stores on one disk, end to end. */
static uint8_t pools[2 * sizeof pool];
static uint32_t tables[2 * TABLE_WORDS];
static const uint32_t pool_lengths[2] = {sizeof pool, sizeof pool};
static uint32_t table_lengths[2];

static int laid_out_twice(uint32_t words)
{
    struct lurdempos_lay_out_answer answer;
    int store;

    for (store = 0; store < 2; store++) {
        table_lengths[store] = words;
        answer = lurdempos_lay_out(pools + store * sizeof pool, sizeof pool,
                                   tables + store * words, words, TILLS,
                                   VERSIONS, BLOCKS, RECORDS, CELLS,
                                   BLOCK_BYTES, SEGMENT_BLOCKS, REBUILD_PERCENT);
        if (!expect("lay out", answer.refusal, LURDEMPOS_ACCEPTED))
            return 0;
    }
    return 1;
}

/* A backup of a segment of letters under a limit of 6. */
static int filed(const char *call, uint32_t words, uint32_t store,
                 const uint8_t *image, uint32_t expected)
{
    struct lurdempos_backup_answer answer = lurdempos_chain_backup(
        pools, sizeof pools, tables, 2 * words, pool_lengths, 2, table_lengths,
        2, store, 6, OWNER, 0, image, SEGMENT_BLOCKS * BLOCK_BYTES);

    return expect(call, answer.refusal, expected)
        && answer.version == (expected == LURDEMPOS_ACCEPTED ? 1 : 0);
}

/* The segment takes 4 cells of the second store; it does not fit under the limit
 * into the first one too, which stays as it was. A store 2 is not there. */
static int chained(uint32_t words)
{
    static uint8_t image[SEGMENT_BLOCKS * BLOCK_BYTES], output[sizeof image];
    static uint8_t pools_before[sizeof pools];
    static uint32_t tables_before[2 * TABLE_WORDS];
    struct lurdempos_restore_answer restored;

    memset(image, 'e', sizeof image);
    if (!laid_out_twice(words)
        || !filed("backup under a limit", words, 1, image, LURDEMPOS_ACCEPTED))
        return 0;
    memcpy(pools_before, pools, sizeof pools);
    memcpy(tables_before, tables, sizeof tables);
    if (!filed("backup over the limit", words, 0, image, LURDEMPOS_OVER_LIMIT)
        || !filed("backup, no store 2", words, 2, image, LURDEMPOS_NO_SUCH_TILL)
        || memcmp(pools_before, pools, sizeof pools) != 0
        || memcmp(tables_before, tables, sizeof tables) != 0)
        return 0;
    restored = lurdempos_chain_restore(pools, sizeof pools, tables, 2 * words,
                                       pool_lengths, 2, table_lengths, 2, 1,
                                       OWNER, 0, 1, output, sizeof output);
    return expect("restore from a chain", restored.refusal, LURDEMPOS_ACCEPTED)
        && restored.length == sizeof image
        && memcmp(image, output, sizeof image) == 0;
}

int main(void)
{
    uint8_t image[500], output[512];
    struct lurdempos_table_length_answer needed = length_with(BLOCK_BYTES);
    struct lurdempos_table_length_answer no_store = length_with(96);
    struct lurdempos_lay_out_answer laid_out;
    struct lurdempos_backup_answer backup;
    struct lurdempos_restore_answer restored;
    struct lurdempos_listing_answer listing;
    struct lurdempos_tally_answer tally;
    struct lurdempos_retire_answer retired;
    size_t words = needed.words;

    if (!turns())
        return 1;
    memset(image, 'a', sizeof image);
    memset(output, 0xee, sizeof output);
    if (!expect("table length", needed.refusal, LURDEMPOS_ACCEPTED)
        || words > TABLE_WORDS)
        return 1;
    if (!expect("table length, blocks of 96 bytes", no_store.refusal,
                LURDEMPOS_CAPACITY_OUT_OF_RANGE))
        return 1;
    laid_out = lurdempos_lay_out(pool, sizeof pool, table, words, TILLS,
                                 VERSIONS, BLOCKS, RECORDS, CELLS,
                                 BLOCK_BYTES, SEGMENT_BLOCKS, REBUILD_PERCENT);
    if (!expect("lay out", laid_out.refusal, LURDEMPOS_ACCEPTED))
        return 1;
    backup = lurdempos_backup(pool, sizeof pool, table, words, OWNER, 1, image,
                              sizeof image);
    if (!expect("backup", backup.refusal, LURDEMPOS_ACCEPTED) || backup.version != 1)
        return 1;
    restored = lurdempos_restore(pool, sizeof pool, table, words, OWNER, 1, 1,
                                 output, sizeof output);
    if (!expect("restore", restored.refusal, LURDEMPOS_ACCEPTED)
        || restored.length != sizeof image || restored.hops != 0
        || memcmp(image, output, sizeof image) != 0 || output[500] != 0xee)
        return 1;
    if (!moved(words, image, sizeof image))
        return 1;
    listing = lurdempos_listing(pool, sizeof pool, table, words, OWNER, 1);
    if (!expect("listing", listing.refusal, LURDEMPOS_ACCEPTED)
        || listing.oldest != 1 || listing.newest != 1 || listing.last != 1)
        return 1;
    /* Three equal blocks and one that is short: two cells would do, but only
     * whole segments are shared. */
    tally = lurdempos_tally(pool, sizeof pool, table, words, OWNER);
    if (!expect("tally", tally.refusal, LURDEMPOS_ACCEPTED) || tally.cells != 4
        || tally.records != 1 || tally.counts != 4)
        return 1;
    retired = lurdempos_retire(pool, sizeof pool, table, words, OWNER, 1, 2);
    if (!expect("retire of 2, never given", retired.refusal,
                LURDEMPOS_NEVER_GIVEN))
        return 1;
    backup = lurdempos_backup(pool, sizeof pool, table, words, OWNER, 1, image,
                              400);
    if (!expect("backup", backup.refusal, LURDEMPOS_ACCEPTED) || backup.version != 2)
        return 1;
    retired = lurdempos_retire(pool, sizeof pool, table, words, OWNER, 1, 2);
    if (!expect("retire of 2, the newest", retired.refusal, LURDEMPOS_ACCEPTED)
        || retired.length != 400)
        return 1;
    restored = lurdempos_restore(pool, sizeof pool, table, words, OWNER, 1, 2,
                                 output, sizeof output);
    if (!expect("restore of 2, no longer held", restored.refusal,
                LURDEMPOS_NO_LONGER_HELD)
        || restored.length != 0)
        return 1;
    listing = lurdempos_listing(pool, sizeof pool, table, words, OWNER, 1);
    if (!expect("listing", listing.refusal, LURDEMPOS_ACCEPTED)
        || listing.oldest != 1 || listing.newest != 1 || listing.last != 2)
        return 1;
    if (!sent(words) || !closed(words) || !dated(words) || !entitled(words)
        || !billed(words) || !chained(needed.words))
        return 1;
    pool[0] ^= 1;
    table[0] = 17;
    tally = lurdempos_tally(pool, sizeof pool, table, words, OWNER);
    return expect("tally of a damaged store", tally.refusal, LURDEMPOS_NOT_SOUND) ? 0 : 1;
}
