/*
 * A runtime that records itself: a kernel of eight work-groups with one item each, every one on a thread of its own, which
 * sums what the groups wrote in the last group that comes. It is the worked example of docs/PRODUCER.md.
 *
 *     producer_threads DIR [relaxed]      writes DIR/group00.gpurace .. DIR/group07.gpurace
 *
 * With `relaxed` the counter orders nothing, as a kernel with atomic_inc has it; the report then names the words of `parts`.
 */
#include "gpurace_trace.h"
#include <pthread.h>

enum { GROUPS = 8 };

/* Words of global memory: parts[0..7] are words 0 to 7, the counter is word 64. */
enum { PARTS = 0, COUNTER = 64 };

/* An atomic variable as the runtime keeps it: its value, and whose release sequences that value belongs to. */
struct atomic_word {
    pthread_mutex_t lock;
    int value;
    struct gpurace_name heads[GROUPS];
    size_t count;
};

static struct atomic_word counter = {PTHREAD_MUTEX_INITIALIZER, 0, {{0, 0, 0}}, 0};
static int parts[GROUPS];
static int sum;
static int is_relaxed;

/* One work-item, with the stream of its group: groups have one item here, so no other thread has the stream. */
struct item {
    struct gpurace_stream stream;
    FILE *file;
    uint64_t group;
    int is_done;
};

/*
 * atomic_fetch_add with order acquire and release. The value and the names change under one lock: else an acquire could name
 * a release whose value it did not see. The operation takes from the releases of which the value was, and is one itself. It
 * has acquired from the older ones, so who acquires from it acquires from them: it takes their place.
 */
static int fetch_add(struct item *item, struct atomic_word *word, uint64_t number, enum gpurace_status *status) {
    struct gpurace_name name;
    pthread_mutex_lock(&word->lock);
    const int old = word->value++;
    if (is_relaxed) {
        *status = gpurace_atomic(&item->stream, 0, GPURACE_RMW, GPURACE_GLOBAL, GPURACE_DEVICE, number);
    } else {
        *status = gpurace_acquire_release(&item->stream, 0, GPURACE_GLOBAL, GPURACE_DEVICE, number, word->heads, word->count,
                                          &name);
        word->heads[0] = name;
        word->count = 1;
    }
    pthread_mutex_unlock(&word->lock);
    return old;
}

static int record(struct item *item, enum gpurace_kind kind, uint64_t word) {
    return gpurace_plain(&item->stream, 0, kind, GPURACE_GLOBAL, word) == GPURACE_OK;
}

/* parts[g] = g + 1; if (atomic_fetch_add(&counter, 1) == 7) for (i ..) sum += parts[i]; */
static int run_kernel(struct item *item) {
    enum gpurace_status status;
    parts[item->group] = (int)item->group + 1;
    if (!record(item, GPURACE_WRITE, PARTS + item->group))
        return 0;
    const int came = fetch_add(item, &counter, COUNTER, &status);
    if (status != GPURACE_OK || came != GROUPS - 1)
        return status == GPURACE_OK;
    for (uint64_t at = 0; at < GROUPS; at++) {
        sum += parts[at];
        if (!record(item, GPURACE_READ, PARTS + at))
            return 0;
    }
    return 1;
}

static void *run_group(void *context) {
    struct item *item = (struct item *)context;
    const int is_open = gpurace_stream_open(&item->stream, gpurace_write_file, item->file, item->group, 1, 7) == GPURACE_OK;
    item->is_done = is_open && run_kernel(item);
    item->is_done &= gpurace_stream_close(&item->stream, !item->is_done) == GPURACE_OK;
    item->is_done &= fclose(item->file) == 0;
    return NULL;
}

static int open_item(struct item *item, const char *folder, int group) {
    char name[4096];
    const int length = snprintf(name, sizeof name, "%s/group%02d.gpurace", folder, group);
    item->group = (uint64_t)group;
    item->file = length > 0 && (size_t)length < sizeof name ? fopen(name, "wb") : NULL;
    if (!item->file)
        perror(folder);
    return item->file != NULL;
}

int main(int count, char **words) {
    static struct item items[GROUPS];
    pthread_t threads[GROUPS];
    int is_done = 1;
    if (count < 2 || count > 3 || (count == 3 && strcmp(words[2], "relaxed") != 0)) {
        fprintf(stderr, "usage: producer_threads DIR [relaxed]\n");
        return 3;
    }
    is_relaxed = count == 3;
    for (int group = 0; group < GROUPS; group++)
        if (!open_item(items + group, words[1], group) ||
            pthread_create(threads + group, NULL, run_group, items + group) != 0)
            return 5;
    for (int group = 0; group < GROUPS; group++) {
        pthread_join(threads[group], NULL);
        is_done &= items[group].is_done;
    }
    return is_done ? 0 : 5;
}
