// What both recorders say in words: lines of info.txt and `buffers`, places, and the folder of a launch.
#ifndef GPURACE_RECORDER_TEXTS_H
#define GPURACE_RECORDER_TEXTS_H

#include "environment.h"

#include <array>
#include <sstream>

namespace gpurace {

using Sizes = std::array<uint64_t, 3>;

// The lines of info.txt that are known from the start, but for those on the window.
inline std::string shape_lines(const std::string &kernel, uint32_t launch, const Sizes &global, const Sizes &local, const Sizes &groups,
                               const std::string &label) {
    std::ostringstream text;
    text << "kernel " << kernel << "\nlaunch " << launch;
    text << "\nglobal " << global[0] << ' ' << global[1] << ' ' << global[2] << "\nlocal " << local[0] << ' ' << local[1] << ' ' << local[2];
    text << "\ngroups " << groups[0] * groups[1] * groups[2] << '\n';
    if (!label.empty()) text << "label " << label << '\n';
    return text.str();
}

// Where an access is in relation to the end of a buffer, or else to its start.
inline std::string outside_text(const std::string &name, uint64_t size, uint64_t offset, uint64_t before) {
    const auto bytes = [](uint64_t count) { return std::to_string(count) + (count == 1 ? " byte" : " bytes"); };
    const std::string where = before > 0       ? bytes(before) + " before the start of "
                              : offset < size  ? "partly after the end of "
                              : offset == size ? "right after the end of "
                                               : bytes(offset - size) + " after the end of ";
    return where + name + ", which has " + bytes(size);
}

// The accesses of one place that are not whole in a buffer: how many, and the first one. There may be more of them.
struct Outside {
    uint64_t count = 0;
    int kind = 0;
    uint64_t bytes = 0, group = 0;
    uint32_t item = 0;
    std::string where; // in relation to a buffer

    std::string line(const std::string &place) const {
        std::ostringstream text;
        const char *how = kind == GPURACE_READ ? "read" : kind == GPURACE_WRITE ? "write" : "atomic";
        text << "out-of-bounds " << count << ' ' << place << ' ' << how << ' ' << bytes << ' ' << group << ' ' << item << ' ' << where << '\n';
        return text.str();
    }
};

// A line of `buffers`; the words of a buffer have `grain` bytes.
inline std::string buffer_line(const std::string &memory, uint64_t first, uint64_t words, const std::string &name, uint32_t grain) {
    const char *part = grain == 4 ? "" : grain == 2 ? ".half" : ".byte";
    return memory + ' ' + std::to_string(first) + ' ' + std::to_string(words) + ' ' + name + part + '\n';
}

// NUMBER-KERNEL, and then .2, .3 .. if `is_taken` says that another process of the program has that folder.
template <class IsTaken> std::string folder_of(const std::string &out, uint32_t number, const std::string &kernel, IsTaken is_taken) {
    char digits[16];
    std::snprintf(digits, sizeof digits, "/%03u-", number);
    const std::string name = out + digits + kernel;
    std::string folder = name;
    for (int copy = 2; is_taken(folder); copy++) folder = name + "." + std::to_string(copy);
    return folder;
}

} // namespace gpurace
#endif
