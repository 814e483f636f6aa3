/*
 * Writing traces for gpurace, in each version of the stream (docs/FORMATS.md, "Stream"). docs/PRODUCER.md says how a runtime makes a
 * trace with it; tools/producer_threads.c is one that does.
 *
 * A trace of a launch is one stream for each of its work-groups: a header, the records of the group's work-items, and an
 * end. Write each to a file of its own; gpurace joins streams with `cat`.
 *
 *     struct gpurace_stream stream;
 *     gpurace_stream_open(&stream, gpurace_write_file, file, 0, 2, 7);      group 0 has 2 items, launch 7
 *     gpurace_plain(&stream, 0, GPURACE_WRITE, GPURACE_GLOBAL, 16);         item 0 writes word 16
 *     gpurace_plain(&stream, 1, GPURACE_READ, GPURACE_GLOBAL, 16);
 *     gpurace_stream_close(&stream, 0);
 *
 * That is a stream of version 2, for launches of up to 64 groups of up to 256 items. The streams of a larger one are begun with
 * gpurace_stream_open_as and GPURACE_VERSION_4, all of them, since an acquire in version 2 can't name a release of group 64.
 *
 * Each call answers GPURACE_OK, or the first thing that is wrong with it, and has then written nothing and counted nothing.
 * Numbers are taken as 64 bits and refused where they are out of range; none is cut to fit. A stream in which a call was
 * refused lacks a record, so its end says that records were lost, whether the caller looked at the answers or not. After
 * GPURACE_WRITE_FAILED a part of a record may be there, and the stream takes nothing more.
 *
 * Threads: the functions have no state but the stream that they are given. Streams are independent of each other; calls on one
 * stream must not overlap, so work-items on several threads share the stream of their group under one lock.
 * Errors: errno is neither read nor set here; after GPURACE_WRITE_FAILED it is as the write function left it.
 *
 * C99 or later, C++11 or later. Nothing but the standard library is needed, and no memory is allocated.
 */
#ifndef GPURACE_TRACE_H
#define GPURACE_TRACE_H

/*
 * The version of this header. Version 1 was the set of functions gpurace_encode_.., which did not check their arguments; version 2
 * wrote streams of version 1, whose records have room for one name, version 3 those of versions 1 and 2, version 4 no sites, and version 5
 * did not count the records of each item.
 */
#define GPURACE_TRACE_VERSION 6

#include <limits.h>
#include <stdint.h>
#include <stdio.h>
#include <string.h>

#define GPURACE_HEADER_BYTES 12
#define GPURACE_RECORD_BYTES 44 /* of versions 2 and 4; a record of versions 1 and 3 has 20 */

/* Limits: groups and items are counted from 0, records include the end. Versions 3 and 4 have the wide ones. */
#define GPURACE_MOST_GROUPS 64
#define GPURACE_MOST_ITEMS 256
#define GPURACE_MOST_WIDE_GROUPS 65535
#define GPURACE_MOST_WIDE_ITEMS 1024
#define GPURACE_MOST_RECORDS 16777216

/* Places in the source that the records of versions 3 and 4 can name: lines of the file `sites`. */
#define GPURACE_MOST_SITES 65535

/* How many releases a record of versions 2 and 4 has room for; one of versions 1 and 3 has room for one. */
#define GPURACE_NAMES_OF_RECORD 4

/* The version of a stream: how many groups and items there are, how many names a record has room for, and its bytes. */
enum gpurace_version { GPURACE_VERSION_1 = 1, GPURACE_VERSION_2 = 2, GPURACE_VERSION_3 = 3, GPURACE_VERSION_4 = 4 };

enum gpurace_kind {
    GPURACE_READ = 0,
    GPURACE_WRITE = 1,
    GPURACE_LOAD = 2,
    GPURACE_STORE = 3,
    GPURACE_RMW = 4,
    GPURACE_BARRIER = 5,
    GPURACE_END = 6
};

enum gpurace_space { GPURACE_GLOBAL = 0, GPURACE_LOCAL = 1 };

/* The flags of a barrier; both may be given. */
enum gpurace_flags { GPURACE_NO_FENCE = 0, GPURACE_GLOBAL_FENCE = 1, GPURACE_LOCAL_FENCE = 2 };

/* memory_scope_work_group and memory_scope_device. On local words write GPURACE_GROUP. */
enum gpurace_scope { GPURACE_GROUP = 1, GPURACE_DEVICE = 2 };

/* memory_order_seq_cst is written as the acquire, the release or both that the operation is. */
enum gpurace_order { GPURACE_RELAXED = 1, GPURACE_ACQUIRE = 2, GPURACE_RELEASE = 3, GPURACE_BOTH = 4 };

/* What a call answers. */
enum gpurace_status {
    GPURACE_OK = 0,
    GPURACE_NOT_OPEN,
    GPURACE_BAD_GROUP,
    GPURACE_BAD_ITEMS,
    GPURACE_BAD_LAUNCH,
    GPURACE_BAD_VERSION,
    GPURACE_BAD_ITEM,
    GPURACE_BAD_KIND,
    GPURACE_BAD_SPACE,
    GPURACE_BAD_SCOPE,
    GPURACE_BAD_WORD,
    GPURACE_BAD_SITE,
    GPURACE_BAD_FLAGS,
    GPURACE_BAD_NAME,
    GPURACE_TOO_MANY_RECORDS,
    GPURACE_WRITE_FAILED
};

/* Writes all the bytes and answers 1, or answers 0. */
typedef int gpurace_write(void *context, const unsigned char *bytes, size_t length);

/*
 * The name of a release: the group and item that did it, and its number among that item's records with order release or both,
 * from 0, over all words and both memories.
 */
struct gpurace_name {
    uint64_t group, item, release;
};

/*
 * The stream of one group. Its fields are to be read alone: `records` counts what was written, `records_of` the records of each item, and
 * `releases` its releases. The last record of an item has the number `records_of[item] - 1` in the file `places`.
 */
struct gpurace_stream {
    gpurace_write *write;
    void *context;
    uint32_t group, items, records, names_of_record, site;
    uint32_t releases[GPURACE_MOST_WIDE_ITEMS], records_of[GPURACE_MOST_WIDE_ITEMS];
    unsigned char is_open, is_broken, lost, is_wide;
};

/* An access, as the checks and the spelling of a record see it. */
struct gpurace_access {
    enum gpurace_kind kind;
    enum gpurace_space space;
    unsigned scope, order;
    uint64_t item, word;
};

/* Checked at compile time: an array of a negative size is refused. */
typedef char gpurace_bytes_have_eight_bits[CHAR_BIT == 8 ? 1 : -1];

/* What a status says, as a sentence without its full stop. */
static inline const char *gpurace_status_text(enum gpurace_status status) {
    switch (status) {
    case GPURACE_OK: return "done";
    case GPURACE_NOT_OPEN: return "the stream is not open";
    case GPURACE_BAD_GROUP: return "the group is not one that the version has: 0 to 63, or 0 to 65534 in versions 3 and 4";
    case GPURACE_BAD_ITEMS: return "the number of items is not 1 to 256, or 1 to 1024 in versions 3 and 4";
    case GPURACE_BAD_LAUNCH: return "the launch is not below 2^32";
    case GPURACE_BAD_VERSION: return "the version is not 1 to 4";
    case GPURACE_BAD_ITEM: return "the item is not below the stream's number of items";
    case GPURACE_BAD_KIND: return "the kind is not one that the call writes";
    case GPURACE_BAD_SPACE: return "the space is neither global nor local";
    case GPURACE_BAD_SCOPE: return "the scope is neither group nor device";
    case GPURACE_BAD_WORD: return "the word is not below 2^32";
    case GPURACE_BAD_SITE: return "the site is not below 2^32, or as a place in the source not 0 to 65535 in version 3 or 4";
    case GPURACE_BAD_FLAGS: return "the flags are not 0 to 3";
    case GPURACE_BAD_NAME: return "a name's group or item is not one that the version has, or its release not below 2^24";
    case GPURACE_TOO_MANY_RECORDS: return "the stream has no room for the record and its end";
    case GPURACE_WRITE_FAILED: return "the bytes could not be written";
    }
    return "no status of this header";
}

/* A write function for streams in files: the context is the FILE. */
static inline int gpurace_write_file(void *context, const unsigned char *bytes, size_t length) {
    return fwrite(bytes, 1, length, (FILE *)context) == length;
}

static inline void gpurace_put(unsigned char *bytes, uint64_t number, int length) {
    for (int at = 0; at < length; at++)
        bytes[at] = (unsigned char)(number >> (8 * at) & 0xff);
}

/* Remembers that the stream lacks a record. */
static inline enum gpurace_status gpurace_refuse(struct gpurace_stream *stream, enum gpurace_status status) {
    stream->lost = 1;
    return status;
}

static inline enum gpurace_status gpurace_send(struct gpurace_stream *stream, const unsigned char *bytes, size_t length) {
    if (stream->write(stream->context, bytes, length))
        return GPURACE_OK;
    stream->is_broken = 1;
    return GPURACE_WRITE_FAILED;
}

/* Whether the stream takes records of this item, and has room for so many of them and its end. */
static inline enum gpurace_status gpurace_ready(const struct gpurace_stream *stream, uint64_t item, uint64_t records) {
    if (!stream->is_open)
        return GPURACE_NOT_OPEN;
    if (stream->is_broken)
        return GPURACE_WRITE_FAILED;
    if (item >= stream->items)
        return GPURACE_BAD_ITEM;
    if (records >= (uint64_t)GPURACE_MOST_RECORDS - stream->records)
        return GPURACE_TOO_MANY_RECORDS;
    return GPURACE_OK;
}

/* Whether an access may be written in so many records. */
static inline enum gpurace_status gpurace_check(const struct gpurace_stream *stream, const struct gpurace_access *access,
                                                uint64_t records) {
    enum gpurace_status status = gpurace_ready(stream, access->item, records);
    if (status != GPURACE_OK)
        return status;
    if (access->space != GPURACE_GLOBAL && access->space != GPURACE_LOCAL)
        return GPURACE_BAD_SPACE;
    if (access->kind >= GPURACE_LOAD && access->scope != GPURACE_GROUP && access->scope != GPURACE_DEVICE)
        return GPURACE_BAD_SCOPE;
    return access->word > UINT32_MAX ? GPURACE_BAD_WORD : GPURACE_OK;
}

static inline uint64_t gpurace_most_groups(int is_wide) { return is_wide ? GPURACE_MOST_WIDE_GROUPS : GPURACE_MOST_GROUPS; }
static inline uint64_t gpurace_most_items(int is_wide) { return is_wide ? GPURACE_MOST_WIDE_ITEMS : GPURACE_MOST_ITEMS; }
static inline uint64_t gpurace_most_sites(int is_wide) { return is_wide ? GPURACE_MOST_SITES : 0; }

static inline int gpurace_is_name(const struct gpurace_stream *stream, const struct gpurace_name *name) {
    return name->group < gpurace_most_groups(stream->is_wide) && name->item < gpurace_most_items(stream->is_wide) &&
           name->release < GPURACE_MOST_RECORDS;
}

/* Whether a name comes before another: by group, then by item, then by the number of the release. */
static inline int gpurace_is_before(const struct gpurace_name *name, const struct gpurace_name *other) {
    if (name->group != other->group)
        return name->group < other->group;
    if (name->item != other->item)
        return name->item < other->item;
    return name->release < other->release;
}

/* The least of the names that come after `last`, or of all if that is NULL; NULL if there is none. */
static inline const struct gpurace_name *gpurace_next_name(const struct gpurace_name *names, size_t count,
                                                           const struct gpurace_name *last) {
    const struct gpurace_name *next = NULL;
    for (size_t at = 0; at < count; at++)
        if ((!last || gpurace_is_before(last, names + at)) && (!next || gpurace_is_before(names + at, next)))
            next = names + at;
    return next;
}

/* Writes a record; `place` is its second byte. The names ascend, and the stream's records have room for them. */
static inline enum gpurace_status gpurace_put_record(struct gpurace_stream *stream, const struct gpurace_access *access,
                                                     unsigned place, const struct gpurace_name *const *names, size_t count) {
    unsigned char bytes[GPURACE_RECORD_BYTES];
    bytes[0] = (unsigned char)access->kind;
    bytes[1] = (unsigned char)place;
    bytes[2] = (unsigned char)access->scope;
    bytes[3] = (unsigned char)access->order;
    gpurace_put(bytes + 4, access->item, 2);
    gpurace_put(bytes + 6, stream->site, 2);
    gpurace_put(bytes + 8, access->word, 4);
    memset(bytes + 12, 0xff, sizeof bytes - 12);
    for (size_t at = 0; at < count; at++) {
        gpurace_put(bytes + 12 + 8 * at, names[at]->group, 2);
        gpurace_put(bytes + 14 + 8 * at, names[at]->item, 2);
        gpurace_put(bytes + 16 + 8 * at, names[at]->release, 4);
    }
    stream->records++;
    if (access->kind != GPURACE_END)
        stream->records_of[access->item]++;
    return gpurace_send(stream, bytes, 12 + 8 * (size_t)stream->names_of_record);
}

/*
 * Writes the records of an acquire, each of its names once and in ascending order. Those beyond what one record has room for are
 * taken by acquire loads of the same word, directly before it.
 */
static inline enum gpurace_status gpurace_put_acquire(struct gpurace_stream *stream, const struct gpurace_access *access,
                                                      const struct gpurace_name *names, size_t count) {
    struct gpurace_access added = *access;
    const struct gpurace_name *held[GPURACE_NAMES_OF_RECORD];
    const struct gpurace_name *next = gpurace_next_name(names, count, NULL);
    enum gpurace_status status = GPURACE_OK;
    size_t length = 0;
    added.kind = GPURACE_LOAD;
    added.order = GPURACE_ACQUIRE;
    while (next && status == GPURACE_OK) {
        if (length == stream->names_of_record) {
            status = gpurace_put_record(stream, &added, (unsigned)added.space, held, length);
            length = 0;
        }
        held[length++] = next;
        next = gpurace_next_name(names, count, next);
    }
    if (status != GPURACE_OK)
        return status;
    return gpurace_put_record(stream, access, (unsigned)access->space, held, length);
}

/* How many records an acquire with these names is. */
static inline uint64_t gpurace_records_of_acquire(const struct gpurace_stream *stream, const struct gpurace_name *names,
                                                  size_t count) {
    const struct gpurace_name *next = gpurace_next_name(names, count, NULL);
    uint64_t distinct = 0;
    for (; next; next = gpurace_next_name(names, count, next))
        distinct++;
    return distinct > stream->names_of_record ? (distinct - 1) / stream->names_of_record + 1 : 1;
}

static inline enum gpurace_status gpurace_check_names(const struct gpurace_stream *stream, const struct gpurace_name *names,
                                                      size_t count) {
    for (size_t at = 0; at < count; at++)
        if (!gpurace_is_name(stream, names + at))
            return GPURACE_BAD_NAME;
    return GPURACE_OK;
}

/* Counts a release of the item, and gives its name if the caller asks for it. */
static inline void gpurace_count_release(struct gpurace_stream *stream, uint64_t item, struct gpurace_name *name) {
    uint32_t release = stream->releases[item]++;
    if (name) {
        name->group = stream->group;
        name->item = item;
        name->release = release;
    }
}

/* Begins the stream of a group (0 to 63) of so many items (1 to 256) in a version, and writes its header; versions 3 and 4 have
 * groups 0 to 65534 of 1 to 1024 items. All streams of a launch give the same number of it; their versions may differ. */
static inline enum gpurace_status gpurace_stream_open_as(struct gpurace_stream *stream, enum gpurace_version version,
                                                         gpurace_write *write, void *context, uint64_t group, uint64_t items,
                                                         uint64_t launch) {
    unsigned char bytes[GPURACE_HEADER_BYTES] = {'G', 'R', 'T', (unsigned char)('0' + version)};
    const int is_wide = version == GPURACE_VERSION_3 || version == GPURACE_VERSION_4;
    memset(stream, 0, sizeof *stream);
    if (!is_wide && version != GPURACE_VERSION_1 && version != GPURACE_VERSION_2)
        return GPURACE_BAD_VERSION;
    if (group >= gpurace_most_groups(is_wide))
        return GPURACE_BAD_GROUP;
    if (items < 1 || items > gpurace_most_items(is_wide))
        return GPURACE_BAD_ITEMS;
    if (launch > UINT32_MAX)
        return GPURACE_BAD_LAUNCH;
    stream->write = write;
    stream->context = context;
    stream->group = (uint32_t)group;
    stream->items = (uint32_t)items;
    stream->names_of_record = version == GPURACE_VERSION_1 || version == GPURACE_VERSION_3 ? 1 : GPURACE_NAMES_OF_RECORD;
    stream->is_wide = (unsigned char)is_wide;
    stream->is_open = 1;
    gpurace_put(bytes + 4, group, 2);
    gpurace_put(bytes + 6, items, 2);
    gpurace_put(bytes + 8, launch, 4);
    return gpurace_send(stream, bytes, sizeof bytes);
}

/* Begins a stream of version 2. */
static inline enum gpurace_status gpurace_stream_open(struct gpurace_stream *stream, gpurace_write *write, void *context,
                                                      uint64_t group, uint64_t items, uint64_t launch) {
    return gpurace_stream_open_as(stream, GPURACE_VERSION_2, write, context, group, items, launch);
}

/*
 * The records written from here on are of this site in the source: its number is a line of the file `sites`, from 1; 0 for
 * none, as at first. Streams of versions 1 and 2 have no room for others.
 */
static inline enum gpurace_status gpurace_at(struct gpurace_stream *stream, uint64_t site) {
    if (!stream->is_open)
        return GPURACE_NOT_OPEN;
    if (site > gpurace_most_sites(stream->is_wide))
        return GPURACE_BAD_SITE;
    stream->site = (uint32_t)site;
    return GPURACE_OK;
}

/* The file `sites` of a launch, and how many lines it has. Begin with {file, 0}; all streams of the launch share it. */
struct gpurace_sites {
    FILE *file;
    uint32_t count;
};

/*
 * Writes a place in the source, as `kernel.cl:3:5`, as the next line of the file, and answers its number for gpurace_at: call it once for each
 * place, and keep the number. The answer is 0, which is no place, if records can number no more, or the line could not be written.
 */
static inline uint32_t gpurace_site(struct gpurace_sites *sites, const char *place) {
    if (sites->count >= GPURACE_MOST_SITES || fprintf(sites->file, "%s\n", place) < 0)
        return 0;
    return ++sites->count;
}

/* A plain read or write (GPURACE_READ, GPURACE_WRITE) of a word. */
static inline enum gpurace_status gpurace_plain(struct gpurace_stream *stream, uint64_t item, enum gpurace_kind kind,
                                                enum gpurace_space space, uint64_t word) {
    const struct gpurace_access access = {kind, space, 0, 0, item, word};
    if (kind != GPURACE_READ && kind != GPURACE_WRITE)
        return gpurace_refuse(stream, GPURACE_BAD_KIND);
    const enum gpurace_status status = gpurace_check(stream, &access, 1);
    return status == GPURACE_OK ? gpurace_put_record(stream, &access, (unsigned)space, NULL, 0) : gpurace_refuse(stream, status);
}

/* A relaxed atomic load, store or read-modify-write (GPURACE_LOAD, GPURACE_STORE, GPURACE_RMW) of a word. */
static inline enum gpurace_status gpurace_atomic(struct gpurace_stream *stream, uint64_t item, enum gpurace_kind kind,
                                                 enum gpurace_space space, enum gpurace_scope scope, uint64_t word) {
    const struct gpurace_access access = {kind, space, (unsigned)scope, GPURACE_RELAXED, item, word};
    if (kind != GPURACE_LOAD && kind != GPURACE_STORE && kind != GPURACE_RMW)
        return gpurace_refuse(stream, GPURACE_BAD_KIND);
    const enum gpurace_status status = gpurace_check(stream, &access, 1);
    return status == GPURACE_OK ? gpurace_put_record(stream, &access, (unsigned)space, NULL, 0) : gpurace_refuse(stream, status);
}

/* A store or read-modify-write (GPURACE_STORE, GPURACE_RMW) with order release. Its name is given if `name` is not NULL. */
static inline enum gpurace_status gpurace_release(struct gpurace_stream *stream, uint64_t item, enum gpurace_kind kind,
                                                  enum gpurace_space space, enum gpurace_scope scope, uint64_t word,
                                                  struct gpurace_name *name) {
    const struct gpurace_access access = {kind, space, (unsigned)scope, GPURACE_RELEASE, item, word};
    if (kind != GPURACE_STORE && kind != GPURACE_RMW)
        return gpurace_refuse(stream, GPURACE_BAD_KIND);
    const enum gpurace_status status = gpurace_check(stream, &access, 1);
    if (status != GPURACE_OK)
        return gpurace_refuse(stream, status);
    gpurace_count_release(stream, item, name);
    return gpurace_put_record(stream, &access, (unsigned)space, NULL, 0);
}

/*
 * A load or read-modify-write (GPURACE_LOAD, GPURACE_RMW) with order acquire, whose value belongs to the release sequences of
 * the named releases; none, where it belongs to no release's. The names may come in any order, and one may come twice.
 */
static inline enum gpurace_status gpurace_acquire(struct gpurace_stream *stream, uint64_t item, enum gpurace_kind kind,
                                                  enum gpurace_space space, enum gpurace_scope scope, uint64_t word,
                                                  const struct gpurace_name *names, size_t count) {
    const struct gpurace_access access = {kind, space, (unsigned)scope, GPURACE_ACQUIRE, item, word};
    if (kind != GPURACE_LOAD && kind != GPURACE_RMW)
        return gpurace_refuse(stream, GPURACE_BAD_KIND);
    enum gpurace_status status = gpurace_check(stream, &access, gpurace_records_of_acquire(stream, names, count));
    if (status == GPURACE_OK)
        status = gpurace_check_names(stream, names, count);
    return status == GPURACE_OK ? gpurace_put_acquire(stream, &access, names, count) : gpurace_refuse(stream, status);
}

/*
 * A read-modify-write with order acquire and release: it takes from the named releases, and is then a release itself, whose
 * name is given if `name` is not NULL. `name` may be one of `names`.
 */
static inline enum gpurace_status gpurace_acquire_release(struct gpurace_stream *stream, uint64_t item,
                                                          enum gpurace_space space, enum gpurace_scope scope, uint64_t word,
                                                          const struct gpurace_name *names, size_t count,
                                                          struct gpurace_name *name) {
    const struct gpurace_access access = {GPURACE_RMW, space, (unsigned)scope, GPURACE_BOTH, item, word};
    enum gpurace_status status = gpurace_check(stream, &access, gpurace_records_of_acquire(stream, names, count));
    if (status == GPURACE_OK)
        status = gpurace_check_names(stream, names, count);
    if (status != GPURACE_OK)
        return gpurace_refuse(stream, status);
    status = gpurace_put_acquire(stream, &access, names, count);
    gpurace_count_release(stream, item, name);
    return status;
}

/* A work-group barrier. Its site is any number, another for each barrier of the kernel's text. */
static inline enum gpurace_status gpurace_barrier(struct gpurace_stream *stream, uint64_t item, uint64_t site, uint64_t flags) {
    const struct gpurace_access barrier = {GPURACE_BARRIER, GPURACE_GLOBAL, 0, 0, item, site};
    const enum gpurace_status status = gpurace_ready(stream, item, 1);
    if (status != GPURACE_OK)
        return gpurace_refuse(stream, status);
    if (site > UINT32_MAX)
        return gpurace_refuse(stream, GPURACE_BAD_SITE);
    if (flags > (GPURACE_GLOBAL_FENCE | GPURACE_LOCAL_FENCE))
        return gpurace_refuse(stream, GPURACE_BAD_FLAGS);
    return gpurace_put_record(stream, &barrier, (unsigned)flags, NULL, 0);
}

/*
 * Writes the end of the stream and closes it: no record comes after it. `cut` is not 0 if records before it were lost, which
 * is also written where a call on this stream was refused. The file under the stream is the caller's to close.
 */
static inline enum gpurace_status gpurace_stream_close(struct gpurace_stream *stream, int cut) {
    const struct gpurace_access end = {GPURACE_END, GPURACE_GLOBAL, 0, 0, 0, 0};
    if (!stream->is_open)
        return GPURACE_NOT_OPEN;
    stream->is_open = 0;
    stream->site = 0;
    if (stream->is_broken)
        return GPURACE_WRITE_FAILED;
    return gpurace_put_record(stream, &end, cut || stream->lost ? 1 : 0, NULL, 0);
}

#endif
