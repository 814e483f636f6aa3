#include "stream.h"

#include "../sites.h"
#include "settings.h"

#include <cerrno>
#include <csignal>
#include <cstring>
#include <ctime>
#include <fcntl.h>
#include <fstream>
#include <sys/stat.h>

namespace gpurace {
namespace {

int open_to_append(const std::string &path) {
    return open(path.c_str(), O_WRONLY | O_CREAT | O_APPEND | O_CLOEXEC, 0666);
}

// Opens a pipe to write to; -1 where the judge ends before it has opened it.
int open_pipe(const std::string &path) {
    for (;;) {
        const int file = open(path.c_str(), O_WRONLY | O_NONBLOCK | O_CLOEXEC);
        if (file >= 0) fcntl(file, F_SETFL, 0); // from here on it waits for the judge
        if (file >= 0 || errno != ENXIO || !is_judge_there()) return file;
        usleep(1000);
    }
}

// Writes all of it, and answers 0 or what went wrong. Where nobody reads a pipe any more, or a file may not be larger, the signal of that
// does not reach the program.
int write_all(int file, const char *bytes, size_t count) {
    sigset_t broken, before;
    sigemptyset(&broken);
    for (const int signal : {SIGPIPE, SIGXFSZ}) sigaddset(&broken, signal);
    pthread_sigmask(SIG_BLOCK, &broken, &before);
    int error = 0;
    for (ssize_t done; !error && count > 0; bytes += done, count -= size_t(done)) {
        done = write(file, bytes, count);
        if (done <= 0) error = done == 0 ? ENOSPC : errno == EINTR ? 0 : errno;
        done = std::max<ssize_t>(done, 0);
    }
    const timespec now{};
    const int sent = error == EPIPE ? SIGPIPE : error == EFBIG ? SIGXFSZ : 0;
    if (sent && !sigismember(&before, sent)) sigtimedwait(&broken, nullptr, &now);
    pthread_sigmask(SIG_SETMASK, &before, nullptr);
    return error;
}

int append_to(const std::string &path, const char *bytes, size_t count) {
    const File file{open_to_append(path)};
    return file.number < 0 ? errno : write_all(file.number, bytes, count);
}

int copy_to(int file, const std::string &path) {
    char bytes[1 << 16];
    const File from{open(path.c_str(), O_RDONLY | O_CLOEXEC)};
    int error = from.number < 0 ? errno : 0;
    for (ssize_t count = 1; !error && count > 0;) {
        count = read(from.number, bytes, sizeof bytes);
        error = count < 0 ? errno : write_all(file, bytes, size_t(count));
    }
    return error;
}

// The disk has no room for all of the stream that begins at `start`. Its last whole record there becomes the end; this
// answers how many records it has then.
uint32_t end_early(const std::string &path, off_t start, uint32_t record_bytes) {
    const File to{open(path.c_str(), O_WRONLY | O_CLOEXEC)};
    const off_t first = start + off_t(GPURACE_HEADER_BYTES), size = off_t(record_bytes);
    off_t records = to.number < 0 ? 0 : std::max(off_t(0), lseek(to.number, 0, SEEK_END) - first) / size;
    char end[GPURACE_RECORD_BYTES];
    std::memset(end, 0xff, sizeof end);
    std::memset(end, 0, 12);
    end[0] = END, end[1] = 1;
    const off_t bytes = records ? first + records * size : start;
    if (to.number < 0 || ftruncate(to.number, bytes) != 0) records = 0;
    if (records && pwrite(to.number, end, size_t(size), bytes - size) != size) records = 0;
    return uint32_t(records);
}

} // namespace

std::string stream_header(bool has_names, uint32_t group, uint64_t items, uint32_t launch) {
    const uint16_t shape[] = {uint16_t(group), uint16_t(items)};
    std::string header("GRT");
    header += has_names ? '4' : '3';
    return header.append(reinterpret_cast<const char *>(shape), 4).append(reinterpret_cast<const char *>(&launch), 4);
}

Streams::Streams(std::string folder_, std::vector<std::string> headers_)
    : folder(std::move(folder_)), headers(std::move(headers_)), are_joined(headers.size() > GPURACE_MOST_GROUPS),
      states(headers.size(), TO_BEGIN), joined_path_(folder + "/groups.gpurace") {}

std::string Streams::path_of(uint32_t group) const {
    return folder + (group < 10 ? "/group0" : "/group") + std::to_string(group) + (are_joined ? ".part" : ".gpurace");
}

void Streams::open_pipes() {
    if (are_piped) return;
    const std::unique_lock<std::shared_mutex> held(lock);
    if (are_piped.exchange(true)) return;
    for (uint32_t group = 0; !are_joined && group < states.size(); group++) {
        const std::string path = path_of(group);
        if (states[group] == TO_BEGIN) std::ofstream(path, std::ios::binary) << headers[group];
        if (states[group] != ENDED) mkfifo((path + ".pipe").c_str(), 0666);
    }
    if (are_joined) mkfifo((joined_path_ + ".pipe").c_str(), 0666);
    joined_.set(-1);
    std::ofstream(folder + "/piped.txt") << '\n';
}

int Streams::join(const std::string &part, const char *bytes, size_t count, uint32_t record_bytes, uint32_t &records) {
    const std::unique_lock<std::shared_mutex> held(lock);
    if (joined_.number < 0) joined_.set(are_piped ? open_pipe(joined_path_ + ".pipe") : open_to_append(joined_path_));
    const off_t start = lseek(joined_.number, 0, SEEK_END);
    int error = joined_.number < 0 ? EPIPE : part.empty() ? 0 : copy_to(joined_.number, part);
    if (!error) error = write_all(joined_.number, bytes, count);
    if (!part.empty()) unlink(part.c_str());
    if (error && !are_piped) records = end_early(joined_path_, std::max(off_t(0), start), record_bytes);
    return error;
}

Stream::Stream(uint32_t group, bool has_names, Streams &streams, std::atomic<uint64_t> &counted)
    : group_(group), record_bytes_(has_names ? 44 : 20), streams_(streams), path_(streams.path_of(group)), counted_(counted) {}

bool Stream::open() {
    bytes_.reset(new char[ROOM]);
    std::memcpy(bytes_.get(), streams_.headers[group_].data(), GPURACE_HEADER_BYTES);
    used_ = GPURACE_HEADER_BYTES;
    if (streams_.are_joined) return true;
    const std::shared_lock<std::shared_mutex> held(streams_.lock);
    if (!streams_.are_piped) { // or its header is there
        streams_.states[group_] = Streams::BEGUN;
        error_ = append_to(path_, bytes_.get(), used_);
    }
    used_ = 0;
    return error_ == 0;
}

void Stream::put(uint64_t head, uint32_t word, const Name *names, size_t count) {
    if (used_ + record_bytes_ > ROOM) flush(false);
    char *record = bytes_.get() + used_;
    std::memcpy(record, &head, 8);
    std::memcpy(record + 8, &word, 4);
    std::memset(record + 12, 0xff, 8);
    if (record_bytes_ > 20) std::memset(record + 20, 0xff, 24);
    for (size_t at = 0; at < count; at++) {
        const uint16_t who[] = {uint16_t(names[at].group), uint16_t(names[at].item)};
        std::memcpy(record + 12 + 8 * at, who, 4);
        std::memcpy(record + 16 + 8 * at, &names[at].number, 4);
    }
    used_ += record_bytes_;
    records_++, uncounted_++;
}

int Stream::write_out(bool is_last) {
    if (!is_piped_) {
        std::shared_lock<std::shared_mutex> held(streams_.lock, std::defer_lock);
        if (!streams_.are_joined) held.lock();
        if (!streams_.are_piped && is_last) streams_.states[group_] = Streams::ENDED;
        if (!streams_.are_piped || streams_.are_joined) return append_to(path_, bytes_.get(), used_);
    }
    if (!is_piped_) {
        is_piped_ = true;
        pipe_.set(open_pipe(path_ + ".pipe"));
    }
    return pipe_.number < 0 ? EPIPE : write_all(pipe_.number, bytes_.get(), used_);
}

void Stream::flush(bool is_last) {
    if (!error_) error_ = write_out(is_last);
    counted_.fetch_add(uncounted_, std::memory_order_relaxed);
    used_ = uncounted_ = 0;
    has_file_ = true;
}

void Stream::close(bool is_cut) {
    if (!bytes_) return;
    put(END | uint64_t(is_cut) << 8, 0, nullptr, 0);
    const bool is_joined = streams_.are_joined, is_in_memory = is_joined && !has_file_;
    if (!is_in_memory) flush(true);
    if (error_ && !is_piped_) records_ = end_early(path_, 0, record_bytes_);
    const std::string part = is_in_memory ? "" : path_;
    const int error = is_joined ? streams_.join(part, bytes_.get(), used_, record_bytes_, records_) : 0;
    if (!error_) error_ = error;
    counted_.fetch_add(uncounted_, std::memory_order_relaxed);
    bytes_.reset();
}

} // namespace gpurace
