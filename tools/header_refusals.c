/*
 * What gpurace_trace.h refuses: each call with one argument out of range answers which one it is, and writes and counts
 * nothing; and the ends of streams. Prints what is not as expected, and its status is then 1. C and C++.
 */
#include "gpurace_trace.h"

struct sink {
    size_t length, room;
    unsigned char last[GPURACE_RECORD_BYTES];
};

static int failures = 0;

/* Keeps the last bytes, and fails where its room is used up. */
static int put(void *context, const unsigned char *bytes, size_t length) {
    struct sink *sink = (struct sink *)context;
    if (length > sink->room)
        return 0;
    sink->room -= length;
    sink->length += length;
    memcpy(sink->last, bytes, length);
    return 1;
}

static void expect(const char *what, enum gpurace_status status, enum gpurace_status wanted) {
    if (status == wanted)
        return;
    printf("%s: '%s', and not '%s'\n", what, gpurace_status_text(status), gpurace_status_text(wanted));
    failures++;
}

static void expect_number(const char *what, uint64_t number, uint64_t wanted) {
    if (number == wanted)
        return;
    printf("%s: %lu, and not %lu\n", what, (unsigned long)number, (unsigned long)wanted);
    failures++;
}

static const uint64_t past_32_bits = 4294967296u;

static void refuses_headers(void) {
    struct sink sink = {0, 1000, {0}};
    struct gpurace_stream stream;
    const size_t wide_group = 65536;
    expect("version 5", gpurace_stream_open_as(&stream, (enum gpurace_version)5, put, &sink, 0, 1, 7), GPURACE_BAD_VERSION);
    expect("group 65536", gpurace_stream_open(&stream, put, &sink, wide_group, 1, 7), GPURACE_BAD_GROUP);
    expect("group 64", gpurace_stream_open(&stream, put, &sink, 64, 1, 7), GPURACE_BAD_GROUP);
    expect("group 2^32", gpurace_stream_open(&stream, put, &sink, past_32_bits, 1, 7), GPURACE_BAD_GROUP);
    expect("no items", gpurace_stream_open(&stream, put, &sink, 0, 0, 7), GPURACE_BAD_ITEMS);
    expect("257 items", gpurace_stream_open(&stream, put, &sink, 0, 257, 7), GPURACE_BAD_ITEMS);
    expect("65792 items", gpurace_stream_open(&stream, put, &sink, 0, 65792, 7), GPURACE_BAD_ITEMS);
    expect("launch 2^32", gpurace_stream_open(&stream, put, &sink, 0, 1, past_32_bits), GPURACE_BAD_LAUNCH);
    expect("a stream that was refused", gpurace_plain(&stream, 0, GPURACE_READ, GPURACE_GLOBAL, 0), GPURACE_NOT_OPEN);
    expect("its end", gpurace_stream_close(&stream, 0), GPURACE_NOT_OPEN);
    expect_number("bytes of refused headers", sink.length, 0);
    expect("the greatest header", gpurace_stream_open(&stream, put, &sink, 63, 256, past_32_bits - 1), GPURACE_OK);
    expect_number("bytes of a header", sink.length, GPURACE_HEADER_BYTES);
}

/* The header of a wide version has 16 bits for the group and for the items. */
static void refuses_wide_headers(enum gpurace_version version, unsigned char digit) {
    struct sink sink = {0, 1000, {0}};
    struct gpurace_stream stream;
    const unsigned char greatest[] = {'G', 'R', 'T', digit, 0xfe, 0xff, 0, 4, 0xff, 0xff, 0xff, 0xff};
    expect("wide group 65535", gpurace_stream_open_as(&stream, version, put, &sink, 65535, 1, 7), GPURACE_BAD_GROUP);
    expect("wide group 2^32", gpurace_stream_open_as(&stream, version, put, &sink, past_32_bits, 1, 7), GPURACE_BAD_GROUP);
    expect("no wide items", gpurace_stream_open_as(&stream, version, put, &sink, 0, 0, 7), GPURACE_BAD_ITEMS);
    expect("1025 items", gpurace_stream_open_as(&stream, version, put, &sink, 0, 1025, 7), GPURACE_BAD_ITEMS);
    expect("wide launch 2^32", gpurace_stream_open_as(&stream, version, put, &sink, 0, 1, past_32_bits), GPURACE_BAD_LAUNCH);
    expect_number("bytes of refused wide headers", sink.length, 0);
    expect("the greatest wide header", gpurace_stream_open_as(&stream, version, put, &sink, 65534, 1024, past_32_bits - 1), GPURACE_OK);
    expect_number("a wide header that differs", (uint64_t)(memcmp(sink.last, greatest, sizeof greatest) != 0), 0);
}

/* What a stream of version 2 refuses is taken by a wide one, up to its own limits. */
static void takes_wide_records(enum gpurace_version version, size_t record) {
    struct sink sink = {0, 1000, {0}};
    struct gpurace_stream stream;
    const enum gpurace_space space = GPURACE_GLOBAL;
    const enum gpurace_scope device = GPURACE_DEVICE;
    const struct gpurace_name refused[] = {{65535, 0, 0}, {0, 1024, 0}, {0, 0, 16777216}};
    const struct gpurace_name good = {65534, 1023, 16777215};
    const unsigned char named[] = {0xfe, 0xff, 0xff, 3, 0xff, 0xff, 0xff, 0};
    struct gpurace_name name = {0, 0, 0};
    expect("header", gpurace_stream_open_as(&stream, version, put, &sink, 65534, 1024, 7), GPURACE_OK);
    expect("item 1024", gpurace_barrier(&stream, 1024, 1, 3), GPURACE_BAD_ITEM);
    for (size_t at = 0; at < sizeof refused / sizeof *refused; at++)
        expect("wide name", gpurace_acquire(&stream, 0, GPURACE_LOAD, space, device, 16, refused + at, 1), GPURACE_BAD_NAME);
    expect("site 65536", gpurace_at(&stream, 65536), GPURACE_BAD_SITE);
    expect("the greatest site", gpurace_at(&stream, 65535), GPURACE_OK);
    expect("release", gpurace_release(&stream, 1023, GPURACE_STORE, space, device, 16, &name), GPURACE_OK);
    expect_number("its site", sink.last[6] + 256u * sink.last[7], 65535);
    expect_number("its item", sink.last[4] + 256u * sink.last[5], 1023);
    expect_number("its name", name.group * 10000 + name.item * 10 + name.release, 655350230);
    expect("the greatest name", gpurace_acquire(&stream, 1023, GPURACE_LOAD, space, device, 16, &good, 1), GPURACE_OK);
    expect_number("a name that differs", (uint64_t)(memcmp(sink.last + 12, named, sizeof named) != 0), 0);
    expect_number("bytes of two records", sink.length, GPURACE_HEADER_BYTES + 2 * record);
}

static void refuses_accesses(struct gpurace_stream *s) {
    const enum gpurace_space space = GPURACE_GLOBAL;
    const enum gpurace_scope device = GPURACE_DEVICE, no_scope = (enum gpurace_scope)0;
#ifndef __cplusplus /* where the type has no third value */
    const enum gpurace_space no_space = (enum gpurace_space)2;
    expect("plain space", gpurace_plain(s, 0, GPURACE_READ, no_space, 16), GPURACE_BAD_SPACE);
    expect("atomic space", gpurace_atomic(s, 0, GPURACE_RMW, no_space, device, 16), GPURACE_BAD_SPACE);
#endif
    expect("plain load", gpurace_plain(s, 0, GPURACE_LOAD, space, 16), GPURACE_BAD_KIND);
    expect("plain item 2", gpurace_plain(s, 2, GPURACE_READ, space, 16), GPURACE_BAD_ITEM);
    expect("plain item 65536", gpurace_plain(s, 65536, GPURACE_READ, space, 16), GPURACE_BAD_ITEM);
    expect("plain word", gpurace_plain(s, 0, GPURACE_READ, space, past_32_bits), GPURACE_BAD_WORD);
    expect("atomic read", gpurace_atomic(s, 0, GPURACE_READ, space, device, 16), GPURACE_BAD_KIND);
    expect("atomic item", gpurace_atomic(s, 2, GPURACE_RMW, space, device, 16), GPURACE_BAD_ITEM);
    expect("atomic scope", gpurace_atomic(s, 0, GPURACE_RMW, space, no_scope, 16), GPURACE_BAD_SCOPE);
    expect("atomic word", gpurace_atomic(s, 0, GPURACE_RMW, space, device, past_32_bits), GPURACE_BAD_WORD);
    expect("barrier item", gpurace_barrier(s, 2, 1, 3), GPURACE_BAD_ITEM);
    expect("barrier site", gpurace_barrier(s, 0, past_32_bits, 3), GPURACE_BAD_SITE);
    expect("barrier flags", gpurace_barrier(s, 0, 1, 4), GPURACE_BAD_FLAGS);
    expect("a site in version 2", gpurace_at(s, 1), GPURACE_BAD_SITE);
    expect("no site in version 2", gpurace_at(s, 0), GPURACE_OK);
}

static void refuses_hand_overs(struct gpurace_stream *s) {
    const enum gpurace_space space = GPURACE_GLOBAL;
    const enum gpurace_scope device = GPURACE_DEVICE, no_scope = (enum gpurace_scope)3;
    const struct gpurace_name names[] = {{64, 0, 0}, {0, 256, 0}, {0, 0, 16777216}, {past_32_bits, 0, 0}};
    const struct gpurace_name good = {63, 255, 16777215};
    struct gpurace_name name = {1, 2, 3};
    expect("release of a load", gpurace_release(s, 0, GPURACE_LOAD, space, device, 16, &name), GPURACE_BAD_KIND);
    expect("release item", gpurace_release(s, 2, GPURACE_STORE, space, device, 16, &name), GPURACE_BAD_ITEM);
    expect("release scope", gpurace_release(s, 0, GPURACE_STORE, space, no_scope, 16, &name), GPURACE_BAD_SCOPE);
    expect("release word", gpurace_release(s, 0, GPURACE_STORE, space, device, past_32_bits, &name), GPURACE_BAD_WORD);
    expect("acquire of a store", gpurace_acquire(s, 0, GPURACE_STORE, space, device, 16, &good, 1), GPURACE_BAD_KIND);
    expect("acquire item", gpurace_acquire(s, 2, GPURACE_LOAD, space, device, 16, &good, 1), GPURACE_BAD_ITEM);
    expect("both item", gpurace_acquire_release(s, 2, space, device, 16, &good, 1, &name), GPURACE_BAD_ITEM);
    for (size_t at = 0; at < sizeof names / sizeof *names; at++) {
        const struct gpurace_name two[] = {good, names[at]};
        expect("acquire name", gpurace_acquire(s, 0, GPURACE_LOAD, space, device, 16, two, 2), GPURACE_BAD_NAME);
        expect("both name", gpurace_acquire_release(s, 0, space, device, 16, two, 2, &name), GPURACE_BAD_NAME);
    }
    expect_number("name of a refused release", name.group * 100 + name.item * 10 + name.release, 123);
    expect_number("releases after refused ones", s->releases[0], 0);
}

/* The names of an acquire are in ascending order, each once; loads before it have those for which a record has no room. */
static void orders_names(enum gpurace_version version, size_t record, uint64_t loads, unsigned char last_name) {
    struct sink sink = {0, 1000, {0}};
    struct gpurace_stream stream;
    const struct gpurace_name names[] = {{1, 0, 5}, {0, 3, 0}, {1, 0, 5}, {0, 2, 7}, {0, 2, 6}, {2, 0, 0}};
    expect("header", gpurace_stream_open_as(&stream, version, put, &sink, 5, 2, 7), GPURACE_OK);
    expect("five names", gpurace_acquire(&stream, 1, GPURACE_LOAD, GPURACE_GLOBAL, GPURACE_DEVICE, 16, names, 6), GPURACE_OK);
    expect_number("bytes of five names", sink.length, GPURACE_HEADER_BYTES + (loads + 1) * record);
    expect_number("the group of the last name", sink.last[12], last_name);
    expect("one name", gpurace_acquire(&stream, 1, GPURACE_LOAD, GPURACE_GLOBAL, GPURACE_DEVICE, 16, names, 1), GPURACE_OK);
    expect_number("its number", sink.last[16], 5);
}

static void fills_a_record_with_names(void) {
    struct sink sink = {0, 1000, {0}};
    struct gpurace_stream stream;
    const struct gpurace_name names[] = {{1, 0, 5}, {0, 3, 0}, {0, 2, 7}, {0, 2, 6}};
    const unsigned char ordered[] = {0, 0, 2, 0, 6, 0, 0, 0, 0, 0, 2, 0, 7, 0, 0, 0, 0, 0, 3, 0, 0, 0, 0, 0, 1, 0, 0, 0, 5, 0, 0, 0};
    expect("header", gpurace_stream_open(&stream, put, &sink, 5, 2, 7), GPURACE_OK);
    expect("four names", gpurace_acquire(&stream, 1, GPURACE_LOAD, GPURACE_GLOBAL, GPURACE_DEVICE, 16, names, 4), GPURACE_OK);
    expect_number("names in another order", (uint64_t)(memcmp(sink.last + 12, ordered, sizeof ordered) != 0), 0);
}

static void refuses_records(void) {
    struct sink sink = {0, 1000, {0}};
    struct gpurace_stream stream;
    expect("header", gpurace_stream_open(&stream, put, &sink, 0, 2, 7), GPURACE_OK);
    refuses_accesses(&stream);
    refuses_hand_overs(&stream);
    expect_number("bytes after refused records", sink.length, GPURACE_HEADER_BYTES);
    expect_number("records after refused ones", stream.records, 0);
    expect("end", gpurace_stream_close(&stream, 0), GPURACE_OK);
    expect_number("the end says that records were lost", sink.last[1], 1);
    expect("record after the end", gpurace_plain(&stream, 0, GPURACE_READ, GPURACE_GLOBAL, 16), GPURACE_NOT_OPEN);
    expect("second end", gpurace_stream_close(&stream, 0), GPURACE_NOT_OPEN);
}

/* A stream has room for 16,777,216 records, its end among them; what does not fit is refused whole. */
static void keeps_room_for_the_end(void) {
    struct sink sink = {0, 800000000, {0}};
    struct gpurace_stream stream;
    const struct gpurace_name names[] = {{0, 0, 0}, {0, 1, 0}, {0, 1, 1}, {0, 1, 2}, {0, 1, 3}};
    const enum gpurace_scope device = GPURACE_DEVICE;
    expect("header", gpurace_stream_open(&stream, put, &sink, 0, 2, 7), GPURACE_OK);
    for (uint32_t at = 0; at < GPURACE_MOST_RECORDS - 2; at++)
        expect("record", gpurace_plain(&stream, 0, GPURACE_READ, GPURACE_GLOBAL, at), GPURACE_OK);
    expect("two records", gpurace_acquire(&stream, 1, GPURACE_LOAD, GPURACE_GLOBAL, device, 4, names, 5),
           GPURACE_TOO_MANY_RECORDS);
    expect("the last one", gpurace_acquire(&stream, 1, GPURACE_LOAD, GPURACE_GLOBAL, device, 4, names, 4), GPURACE_OK);
    expect("one more", gpurace_barrier(&stream, 1, 1, 3), GPURACE_TOO_MANY_RECORDS);
    expect("end", gpurace_stream_close(&stream, 0), GPURACE_OK);
    expect_number("records of a full stream", stream.records, GPURACE_MOST_RECORDS);
    expect_number("bytes of a full stream", sink.length, 12 + GPURACE_RECORD_BYTES * (uint64_t)GPURACE_MOST_RECORDS);
    expect_number("its end says that records were lost", sink.last[1], 1);
}

static void tells_names(void) {
    struct sink sink = {0, 1000, {0}};
    struct gpurace_stream stream;
    struct gpurace_name name = {9, 9, 9};
    const enum gpurace_scope device = GPURACE_DEVICE;
    expect("header", gpurace_stream_open(&stream, put, &sink, 5, 2, 7), GPURACE_OK);
    expect("release", gpurace_release(&stream, 1, GPURACE_STORE, GPURACE_GLOBAL, device, 16, NULL), GPURACE_OK);
    expect("both", gpurace_acquire_release(&stream, 1, GPURACE_LOCAL, GPURACE_GROUP, 20, NULL, 0, &name), GPURACE_OK);
    expect_number("the second release's name", name.group * 100 + name.item * 10 + name.release, 511);
    expect("end", gpurace_stream_close(&stream, 0), GPURACE_OK);
    expect_number("an end without losses", sink.last[1], 0);
}

static void fails_with_the_writer(void) {
    struct sink sink = {0, GPURACE_HEADER_BYTES + GPURACE_RECORD_BYTES + 8, {0}};
    struct gpurace_stream stream;
    expect("header", gpurace_stream_open(&stream, put, &sink, 0, 1, 7), GPURACE_OK);
    expect("record", gpurace_barrier(&stream, 0, 1, 3), GPURACE_OK);
    expect("no room", gpurace_barrier(&stream, 0, 1, 3), GPURACE_WRITE_FAILED);
    sink.room = 1000;
    expect("after it", gpurace_barrier(&stream, 0, 1, 3), GPURACE_WRITE_FAILED);
    expect("its end", gpurace_stream_close(&stream, 0), GPURACE_WRITE_FAILED);
    expect_number("bytes of a broken stream", sink.length, GPURACE_HEADER_BYTES + GPURACE_RECORD_BYTES);
}

/* The records of each item are counted: all that an acquire is, its barriers too, and nothing that is refused; an end is of no item. */
static void counts_records_of_items(void) {
    struct sink sink = {0, 1000, {0}};
    struct gpurace_stream stream;
    const struct gpurace_name names[] = {{0, 0, 0}, {0, 0, 1}, {0, 0, 2}, {0, 0, 3}, {0, 0, 4}};
    gpurace_stream_open(&stream, put, &sink, 0, 2, 7);
    gpurace_plain(&stream, 1, GPURACE_WRITE, GPURACE_GLOBAL, 4);
    gpurace_plain(&stream, 1, GPURACE_READ, GPURACE_GLOBAL, past_32_bits);
    gpurace_barrier(&stream, 1, 0, GPURACE_LOCAL_FENCE);
    expect_number("records of an item", stream.records_of[1], 2);
    gpurace_acquire(&stream, 1, GPURACE_LOAD, GPURACE_GLOBAL, GPURACE_DEVICE, 4, names, 5);
    expect_number("records of an item with an acquire of two", stream.records_of[1], 4);
    gpurace_release(&stream, 0, GPURACE_STORE, GPURACE_GLOBAL, GPURACE_DEVICE, 4, NULL);
    gpurace_stream_close(&stream, 0);
    expect_number("records of the other item", stream.records_of[0], 1);
    expect_number("records of both and the end", stream.records, 6);
}

/* Places are lines, numbered from 1, as many as records can name. */
static void numbers_sites(void) {
    struct gpurace_sites sites = {tmpfile(), 0};
    char text[32] = "";
    if (!sites.file)
        return;
    expect_number("the first place", gpurace_site(&sites, "a.cl:1:1"), 1);
    expect_number("the second place", gpurace_site(&sites, "a.cl:2:1"), 2);
    rewind(sites.file);
    expect_number("bytes of two places", fread(text, 1, sizeof text, sites.file), 18);
    expect_number("lines of two places", (uint64_t)strcmp(text, "a.cl:1:1\na.cl:2:1\n"), 0);
    sites.count = GPURACE_MOST_SITES - 1;
    fseek(sites.file, 0, SEEK_END);
    expect_number("the last place", gpurace_site(&sites, "a.cl:3:1"), GPURACE_MOST_SITES);
    expect_number("one place more", gpurace_site(&sites, "a.cl:4:1"), 0);
    fclose(sites.file);
}

int main(void) {
    counts_records_of_items();
    numbers_sites();
    refuses_headers();
    refuses_wide_headers(GPURACE_VERSION_3, '3');
    refuses_wide_headers(GPURACE_VERSION_4, '4');
    refuses_records();
    keeps_room_for_the_end();
    tells_names();
    orders_names(GPURACE_VERSION_1, 20, 4, 2);
    orders_names(GPURACE_VERSION_2, GPURACE_RECORD_BYTES, 1, 2);
    orders_names(GPURACE_VERSION_3, 20, 4, 2);
    orders_names(GPURACE_VERSION_4, GPURACE_RECORD_BYTES, 1, 2);
    takes_wide_records(GPURACE_VERSION_3, 20);
    takes_wide_records(GPURACE_VERSION_4, GPURACE_RECORD_BYTES);
    fills_a_record_with_names();
    fails_with_the_writer();
    return failures == 0 ? 0 : 1;
}
