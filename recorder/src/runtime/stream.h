// The files that grow while a launch runs: its streams.
#pragma once

#include "release_sequences.h"

#include <mutex>
#include <shared_mutex>
#include <string>
#include <unistd.h>

namespace gpurace {

std::string stream_header(bool has_names, uint32_t group, uint64_t items, uint32_t launch);

struct File { // that is open as this number, or none; it is closed at the end
    int number = -1;
    ~File() { set(-1); }
    void set(int other) {
        if (number >= 0) close(number);
        number = other;
    }
};

// The files of the streams: one for each group, or one to which each is joined when its group ends. Where they are full
// they go on as pipes, NAME.pipe beside NAME. The judge begins when it sees piped.txt, and wants the headers of all
// streams first: that of a stream that is not begun is a file.
struct Streams {
    enum State : char { TO_BEGIN, BEGUN, ENDED };
    Streams(std::string folder, std::vector<std::string> headers);
    std::string path_of(uint32_t group) const; // of joined ones: what memory has no room for, until the group ends
    void open_pipes();
    // Joins a stream: its part that is a file, and these bytes. Answers 0 or what went wrong; it has `records` then.
    int join(const std::string &part, const char *bytes, size_t count, uint32_t record_bytes, uint32_t &records);

    const std::string folder;
    const std::vector<std::string> headers;
    const bool are_joined;
    std::shared_mutex lock; // held alone while pipes are made or one is joined, and shared while one is written
    std::vector<State> states;
    std::atomic<bool> are_piped{false};

private:
    const std::string joined_path_;
    File joined_; // the file of the joined streams, or its pipe, once it is open
};

// A group's stream. Records wait in a buffer until it is full; if they can't be written, the stream is ended as cut.
class Stream {
public:
    // `counted` counts the records that are written.
    Stream(uint32_t group, bool has_names, Streams &streams, std::atomic<uint64_t> &counted);
    bool open();
    void put(uint64_t head, uint32_t word, const Name *names, size_t count);
    void close(bool is_cut);
    uint32_t records() const { return records_; }
    bool is_full() const { return records_ >= GPURACE_MOST_RECORDS - 1; }
    int error() const { return error_; }

private:
    static constexpr size_t ROOM = 1 << 17;
    const uint32_t group_, record_bytes_;
    Streams &streams_;
    const std::string path_;
    bool is_piped_ = false, has_file_ = false;
    File pipe_;
    int error_ = 0;
    uint32_t records_ = 0, uncounted_ = 0;
    std::unique_ptr<char[]> bytes_; // null where it is not open
    size_t used_ = 0;
    std::atomic<uint64_t> &counted_;

    void flush(bool is_last);
    int write_out(bool is_last);
};

} // namespace gpurace
