/*
 * Writes a trace with gpurace_trace.h: three work-groups of one item, each of which writes a part and counts itself by a
 * read-modify-write that releases. The last one acquires the counter, whose value is of all three releases, and reads the parts.
 * It is the example examples/last_block_mended.
 */
#include "gpurace_trace.h"

enum { GROUPS = 3, COUNTER = 64 };

/* Says what was refused. */
static int is_done(enum gpurace_status status) {
    if (status != GPURACE_OK)
        fprintf(stderr, "last_block: %s\n", gpurace_status_text(status));
    return status == GPURACE_OK;
}

static int put_part(struct gpurace_stream *stream, uint64_t group, struct gpurace_name *name) {
    return is_done(gpurace_stream_open(stream, gpurace_write_file, stdout, group, 1, 7)) &&
           is_done(gpurace_plain(stream, 0, GPURACE_WRITE, GPURACE_GLOBAL, group)) &&
           is_done(gpurace_release(stream, 0, GPURACE_RMW, GPURACE_GLOBAL, GPURACE_DEVICE, COUNTER, name));
}

static int put_sum(struct gpurace_stream *stream, const struct gpurace_name *names) {
    if (!is_done(gpurace_acquire(stream, 0, GPURACE_LOAD, GPURACE_GLOBAL, GPURACE_DEVICE, COUNTER, names, GROUPS)))
        return 0;
    for (uint64_t part = 0; part < GROUPS; part++)
        if (!is_done(gpurace_plain(stream, 0, GPURACE_READ, GPURACE_GLOBAL, part)))
            return 0;
    return 1;
}

int main(void) {
    struct gpurace_stream stream;
    struct gpurace_name names[GROUPS];
    for (uint64_t group = 0; group < GROUPS; group++) {
        const int is_last = group == GROUPS - 1;
        if (!put_part(&stream, group, names + group) || (is_last && !put_sum(&stream, names)) ||
            !is_done(gpurace_stream_close(&stream, 0)))
            return 1;
    }
    return fflush(stdout) == 0 ? 0 : 1;
}
