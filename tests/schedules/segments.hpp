// A list of segments whose slots are claimed by fetch-and-add (after Ramalhete's array queue of 2016), and ways to get it
// wrong.
#ifndef SEGMENTS_HPP
#define SEGMENTS_HPP

#include "any.hpp"

#include <array>
#include <atomic>
#include <cstddef>
#include <memory>

enum class Loss {
    None,
    Segment,    // a new segment is stored without a compare-and-swap, and so may replace another
    Slot        // a dequeue that comes before its enqueue doesn't mark the slot, and the value stays there
};

template <Loss loss>
class Segments : public Any {
public:
    Segments() {
        Segment* const first = make(0, false);
        head_.store(first);
        tail_.store(first);
    }

    ~Segments() override {
        for (Segment* segment = made_.load(); segment != nullptr;) {
            const std::unique_ptr<Segment> old(segment);
            segment = segment->made_before;
        }
    }

    bool enqueue(std::uint64_t value) override {
        for (;;) {
            Segment* tail = tail_.load();
            const std::size_t place = tail->claimed.fetch_add(1);
            if (place < size) {
                std::uint64_t free = nothing;
                if (tail->slots[place].compare_exchange_strong(free, value + 2)) {
                    return true;
                }
                continue;
            }
            Segment* next = tail->next.load();
            if (next != nullptr) {
                tail_.compare_exchange_strong(tail, next);
                continue;
            }
            Segment* const fresh = make(value + 2, true);
            if (link(tail, fresh)) {
                tail_.compare_exchange_strong(tail, fresh);
                return true;
            }
        }
    }

    std::optional<std::uint64_t> dequeue() override {
        for (;;) {
            Segment* head = head_.load();
            if (head->taken.load() >= head->claimed.load() && head->next.load() == nullptr) {
                return std::nullopt;
            }
            const std::size_t place = head->taken.fetch_add(1);
            if (place >= size) {
                Segment* const next = head->next.load();
                if (next == nullptr) {
                    return std::nullopt;
                }
                head_.compare_exchange_strong(head, next);
                continue;
            }
            const std::uint64_t found = take(head->slots[place]);
            if (found != nothing) {
                return found - 2;
            }
        }
    }

private:
    static constexpr std::size_t size = 4;
    static constexpr std::uint64_t nothing = 0, taken = 1;

    struct Segment {
        std::atomic<std::size_t> claimed{0}, taken{0};
        std::array<std::atomic<std::uint64_t>, size> slots{};
        std::atomic<Segment*> next{nullptr};
        Segment* made_before = nullptr;
    };

    // Segments are kept until the queue ends.
    Segment* make(std::uint64_t first, bool has_first) {
        auto* const segment = new Segment;
        segment->slots[0].store(first, std::memory_order_relaxed);
        segment->claimed.store(has_first ? 1 : 0, std::memory_order_relaxed);
        segment->made_before = made_.load();
        while (!made_.compare_exchange_weak(segment->made_before, segment)) {
        }
        return segment;
    }

    static bool link(Segment* last, Segment* fresh) {
        if (loss == Loss::Segment) {
            last->next.store(fresh);
            return true;
        }
        Segment* none = nullptr;
        return last->next.compare_exchange_strong(none, fresh);
    }

    static std::uint64_t take(std::atomic<std::uint64_t>& slot) {
        return loss == Loss::Slot ? slot.load() : slot.exchange(taken);
    }

    std::atomic<Segment*> head_{nullptr}, tail_{nullptr}, made_{nullptr};
};

#endif
