// The names of releases, which an acquire gives in its record, and how an atomic changes those of its word; of both recorders.
#ifndef GPURACE_RECORDER_NAMES_H
#define GPURACE_RECORDER_NAMES_H

#include "../gpurace_trace.h"

#include <algorithm>
#include <cstdint>
#include <tuple>
#include <vector>

namespace gpurace {

inline bool acquires(int order) { return order == GPURACE_ACQUIRE || order == GPURACE_BOTH; }
inline bool releases(int order) { return order == GPURACE_RELEASE || order == GPURACE_BOTH; }

// A release operation by its number among its item's. Of one whose group is NOT_RECORDED no more than that is known.
struct Name {
    uint32_t group, item, scope, number;

    auto key() const { return std::tuple(group, item, number); }
    bool operator==(const Name &other) const { return key() == other.key(); }
    bool operator<(const Name &other) const { return key() < other.key(); }
};
constexpr uint32_t NOT_RECORDED = UINT32_MAX;

using Names = std::vector<Name>;

// The heads of the release sequences to which a word's value belongs, when an operation has changed it: a store leaves the sequences of
// its own item alone, a read-modify-write leaves all. Names that a later release implies are left out: who acquires from that has what
// it acquired, and what its item did before it. An operation that is not recorded takes nobody's place.
inline void change_heads(Names &heads, const Name &own, bool is_store, int order, bool is_recorded) {
    const auto is_over = [&](const Name &head) {
        const bool is_own = own.group != NOT_RECORDED && head.group == own.group && head.item == own.item;
        const bool is_inclusive = head.scope == own.scope && (own.scope == GPURACE_DEVICE || head.group == own.group);
        const bool is_known = is_own || (order == GPURACE_BOTH && head.group != NOT_RECORDED);
        const bool is_implied = is_recorded && releases(order) && is_inclusive && is_known;
        const bool is_again = own.group == NOT_RECORDED && head.group == NOT_RECORDED && releases(order);
        return (is_store && !is_own) || is_implied || is_again;
    };
    heads.erase(std::remove_if(heads.begin(), heads.end(), is_over), heads.end());
    if (releases(order)) heads.push_back(own);
}

} // namespace gpurace
#endif
