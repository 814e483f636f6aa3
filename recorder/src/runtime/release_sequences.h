// The releases to whose release sequences the value of each atomic word belongs: what an acquire of the word names. The
// change of a value and that of its names are one step, under the lock of the word's stripe.
#pragma once

#include "../../../tools/recorder/names.h"

#include <atomic>
#include <cstring>
#include <memory>
#include <mutex>
#include <sched.h>
#include <unordered_map>

namespace gpurace {

struct alignas(64) Stripe {
    std::atomic<bool> is_locked{false};
    std::unordered_map<uint64_t, Names> heads; // by address

    void lock() {
        for (unsigned tries = 0; is_locked.exchange(true, std::memory_order_acquire); tries++)
            if (tries > 200) sched_yield();
    }
    void unlock() { is_locked.store(false, std::memory_order_release); }
};

class ReleaseSequences {
public:
    Stripe &stripe_of(uint64_t address) { return stripes_[((address / LINE) * 0x9e3779b97f4a7c15ull >> 40) % STRIPES]; }
    // The names that the word's value has; the stripe is locked.
    static Names heads_of(const Stripe &stripe, uint64_t address) {
        const auto found = stripe.heads.find(address);
        return found == stripe.heads.end() ? Names() : found->second;
    }
    // An atomic operation has changed the word; the stripe is locked. A plain write is not: see `write`.
    static void modify(Stripe &stripe, uint64_t address, const Name &own, bool is_store, int order) {
        const auto found = stripe.heads.find(address);
        if (found == stripe.heads.end() && !releases(order)) return;
        Names &heads = found == stripe.heads.end() ? stripe.heads[address] : found->second;
        change_heads(heads, own, is_store, order, own.group != NOT_RECORDED);
        if (heads.empty()) stripe.heads.erase(address);
    }
    // Copies bytes to where a plain write goes, and ends the sequences of all that it covers when it is done.
    void write(uint64_t address, const uint8_t *from, uint64_t bytes) {
        for (uint64_t at = address, end = address + bytes; at < end;) {
            const uint64_t next = std::min(end, (at / LINE + 1) * LINE);
            Stripe &stripe = stripe_of(at);
            const std::lock_guard<Stripe> held(stripe);
            std::memcpy(reinterpret_cast<void *>(at), from + (at - address), next - at);
            for (auto head = stripe.heads.begin(); head != stripe.heads.end();)
                head = head->first >= at && head->first < next ? stripe.heads.erase(head) : std::next(head);
            at = next;
        }
    }

private:
    static constexpr uint64_t LINE = 64; // the bytes that belong to one stripe together
    static constexpr uint64_t STRIPES = 4096;
    std::unique_ptr<Stripe[]> stripes_{new Stripe[STRIPES]};
};

} // namespace gpurace
