// Which words of a memory several items have stored to, all of them the same value: a finding of such stores says so.
#pragma once

#include "fiber.h"

#include <algorithm>
#include <mutex>
#include <string>

namespace gpurace {

class StoredValues {
public:
    explicit StoredValues(uint64_t words) : entries_(reinterpret_cast<uint64_t *>(memory_.take(1, words * sizeof(uint64_t), false))) {}
    // An item has stored to a word a value that is known, or one that is not.
    void note(uint64_t word, uint32_t item, uint32_t value) {
        const uint64_t own = ONE_ITEM | uint64_t(item) << 32 | value;
        if (entries_ && !is_settled(__atomic_load_n(&entries_[word], __ATOMIC_RELAXED), own)) change(word, own);
    }
    void note_unknown(uint64_t word) {
        if (entries_) __atomic_store_n(&entries_[word], DIFFERENT, __ATOMIC_RELAXED);
    }
    // `MEMORY FIRST LAST` for each run of words that have got the same value from several items.
    std::string lines(const std::string &memory) {
        const auto is_other = [&](uint64_t word) {
            return __atomic_load_n(&entries_[word], __ATOMIC_RELAXED) >= DIFFERENT;
        };
        const std::lock_guard<std::mutex> held(lock_);
        same_.erase(std::remove_if(same_.begin(), same_.end(), is_other), same_.end());
        std::sort(same_.begin(), same_.end());
        std::string text;
        for (size_t at = 0, next; at < same_.size(); at = next) {
            for (next = at + 1; next < same_.size() && same_[next] == same_[next - 1] + 1;) next++;
            text += memory + ' ' + std::to_string(same_[at]) + ' ' + std::to_string(same_[next - 1]) + '\n';
        }
        return text;
    }

private:
    // What a word's entry says: how it was stored to, the first item, and the value.
    enum State : uint64_t { ONE_ITEM = 1ull << 62, SAME = 2ull << 62, DIFFERENT = 3ull << 62 };
    Pool memory_;
    uint64_t *const entries_; // null where there is no memory; then nothing is said
    std::mutex lock_;
    std::vector<uint64_t> same_; // words that have been SAME

    // Whether an entry stays as it is when `own` is stored.
    static bool is_settled(uint64_t entry, uint64_t own) {
        return entry == own || entry >= DIFFERENT || (entry >= SAME && uint32_t(entry) == uint32_t(own));
    }
    void change(uint64_t word, uint64_t own) {
        uint64_t seen = 0, made = own; // most words are stored to for the first time
        while (!__atomic_compare_exchange_n(&entries_[word], &seen, made, false, __ATOMIC_RELAXED, __ATOMIC_RELAXED)) {
            if (is_settled(seen, own)) return;
            made = uint32_t(seen) == uint32_t(own) ? seen ^ ONE_ITEM ^ SAME : DIFFERENT;
        }
        if (made < SAME || made >= DIFFERENT) return;
        const std::lock_guard<std::mutex> held(lock_);
        same_.push_back(word);
    }
};

} // namespace gpurace
