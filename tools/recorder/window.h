// Which work-groups of a launch are recorded, and the numbers that they have in its trace.
#ifndef GPURACE_RECORDER_WINDOW_H
#define GPURACE_RECORDER_WINDOW_H

#include "../gpurace_trace.h"

#include <algorithm>
#include <cstdint>
#include <string>
#include <vector>

namespace gpurace {

// Parts of neighbouring groups, in ascending order. A trace numbers the groups of all parts in one line, from 0.
class Window {
public:
    static constexpr uint64_t NONE = UINT64_MAX;
    static constexpr const char *FORM = "FIRST:COUNT, as 0:8, or several in ascending order, as 0:8,248:8";

    // `FIRST:COUNT`, or several with commas between; false where the text is not so.
    bool parse(const std::string &text) {
        parts_.clear();
        const char *at = text.c_str();
        for (uint64_t end = 0;; at++) {
            unsigned long first = 0, count = 0;
            int used = 0;
            if (std::sscanf(at, "%9lu:%9lu%n", &first, &count, &used) != 2 || count == 0 || first < end) return false;
            parts_.push_back({first, count});
            end = first + count;
            at += used;
            if (*at != ',') return *at == 0;
        }
    }
    // What there is of it in a launch of so many groups, as far as a trace has room.
    Window within(uint64_t groups) const {
        Window window;
        window.parts_.clear();
        for (const Part &part : parts_) {
            const uint64_t there = groups - std::min(groups, part.first);
            const uint64_t count = std::min({part.count, there, GPURACE_MOST_WIDE_GROUPS - window.count()});
            if (count > 0) window.parts_.push_back({part.first, count});
        }
        return window;
    }
    uint64_t count() const {
        uint64_t count = 0;
        for (const Part &part : parts_) count += part.count;
        return count;
    }
    // The group's number in the trace, or NONE.
    uint64_t number_of(uint64_t group) const {
        uint64_t before = 0;
        for (const Part &part : parts_) {
            if (group >= part.first && group - part.first < part.count) return before + (group - part.first);
            before += part.count;
        }
        return NONE;
    }
    // The group that has this number.
    uint64_t group_of(uint64_t number) const {
        for (const Part &part : parts_) {
            if (number < part.count) return part.first + number;
            number -= part.count;
        }
        return NONE;
    }
    // Lines of info.txt.
    std::string lines() const {
        std::string text;
        for (const Part &part : parts_)
            text += "window " + std::to_string(part.first) + " " + std::to_string(part.count) + "\n";
        return text;
    }

private:
    struct Part {
        uint64_t first, count;
    };
    std::vector<Part> parts_{{0, UINT64_MAX}}; // all groups
};

} // namespace gpurace
#endif
