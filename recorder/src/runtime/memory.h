// The buffers of a launch as spans of memory, and their words in the trace.
#pragma once

#include "program.h"

#include <algorithm>

namespace gpurace {

struct Span {
    uint64_t address = 0, bytes = 0;
    uint64_t first_word = 0;
    uint32_t grain = 4, shift = 2; // the bytes of a word, and their logarithm
    bool has_atomics = false;
    size_t entry = 0; // the first that it has
    std::string name;

    bool holds(uint64_t at, uint64_t count) const {
        const uint64_t offset = at - address;
        return offset < bytes && count <= bytes - offset;
    }
    uint64_t word_of(uint64_t at) const { return first_word + ((at - address) >> shift); }
    uint64_t words() const { return (bytes + grain - 1) >> shift; }
    void join(const Span &other) {
        bytes = std::max(bytes, other.address + other.bytes - address);
        grain = std::min(grain, other.grain);
        has_atomics = has_atomics || other.has_atomics;
        entry = std::min(entry, other.entry);
        name += "=" + other.name;
    }
};

constexpr uint64_t APART = 16; // words between spans

// The spans of the entries of one space, whose addresses are their own or these; those that overlap are one. They never share a word, and
// have some words between them. Words are numbered in the order of the entries, since the driver's addresses differ from run to run.
inline std::vector<Span> spans_of(const std::vector<Entry> &entries, const std::vector<uint64_t> &addresses, int space) {
    std::vector<Span> found, spans;
    for (size_t at = 0; at < entries.size(); at++) {
        const Entry &entry = entries[at];
        const uint64_t address = addresses.empty() ? entry.address : addresses[at];
        if (entry.space == space && entry.bytes > 0 && address)
            found.push_back({address, entry.bytes, 0, entry.grain, 2, entry.has_atomics, at, entry.name});
    }
    const auto is_before = [](const Span &one, const Span &other) { return one.address < other.address; };
    std::stable_sort(found.begin(), found.end(), is_before);
    for (const Span &span : found) {
        if (!spans.empty() && span.address < spans.back().address + spans.back().bytes) spans.back().join(span);
        else spans.push_back(span);
    }
    std::sort(spans.begin(), spans.end(), [](const Span &one, const Span &other) { return one.entry < other.entry; });
    uint64_t first = 0;
    for (Span &span : spans) {
        span.first_word = first;
        span.shift = span.grain == 4 ? 2 : span.grain == 2 ? 1 : 0;
        first = (first + span.words() + 2 * APART - 1) / APART * APART;
    }
    return spans;
}

// The numbers that their words have.
inline uint64_t words_of(const std::vector<Span> &spans) {
    return spans.empty() ? 0 : spans.back().first_word + spans.back().words();
}

// The word of no buffer by which copies are handed over to those who wait for them.
inline uint64_t word_of_waits(const std::vector<Span> &spans) { return words_of(spans) + APART; }

// The span that has this access, or null.
inline const Span *find_span(const std::vector<Span> &spans, uint64_t address, uint64_t bytes) {
    for (const Span &span : spans)
        if (span.holds(address, bytes)) return &span;
    return nullptr;
}

// Where a group's local memory has each entry, from `start` on; 0 for global ones. Gaps catch accesses that go astray.
constexpr uint64_t LOCAL_GAP = 128;
struct LocalLayout {
    std::vector<uint64_t> addresses;
    uint64_t bytes = LOCAL_GAP;
};
inline LocalLayout lay_out_locals(const std::vector<Entry> &entries, uint64_t start) {
    LocalLayout layout;
    for (const Entry &entry : entries) {
        layout.addresses.push_back(entry.space == LOCAL ? start + layout.bytes : 0);
        if (entry.space == LOCAL) layout.bytes += (entry.bytes + LOCAL_GAP - 1) / LOCAL_GAP * LOCAL_GAP + LOCAL_GAP;
    }
    return layout;
}

} // namespace gpurace
