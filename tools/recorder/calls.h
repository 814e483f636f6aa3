// The calls in a kernel that the recorder knows, by their names.
#ifndef GPURACE_RECORDER_CALLS_H
#define GPURACE_RECORDER_CALLS_H

#include <string_view>
#include <utility>

namespace gpurace {

enum class Call { other, barrier, wait, copy, fence, atomic, explicit_load, explicit_store, explicit_change, explicit_exchange };

inline Call call_of(std::string_view name) {
    const std::pair<const char *, Call> table[] = {
        {"gpurace_atomic_load", Call::explicit_load},      {"gpurace_atomic_store", Call::explicit_store},
        {"gpurace_atomic_compare", Call::explicit_exchange}, {"gpurace_atomic_", Call::explicit_change},
        {"wait_group_events", Call::wait},                 {"async_work_group", Call::copy},
        {"mem_fence", Call::fence},                        {"atomic_work_item_fence", Call::fence},
        {"barrier", Call::barrier},                        {"atom", Call::atomic}};
    for (const auto &[part, call] : table)
        if (name.find(part) != name.npos) return call;
    return Call::other;
}

} // namespace gpurace
#endif
