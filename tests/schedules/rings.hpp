// Rings for many threads (Vyukov 2010) and for one producer and one consumer (Lamport 1983), and ways to get them wrong.
#ifndef RINGS_HPP
#define RINGS_HPP

#include "any.hpp"

#include <array>
#include <atomic>
#include <cstddef>
#include <thread>

enum class Mistake {
    None,
    SequenceFirst,    // the slot is said to be full before the value is in
    FreedEarly,       // .. to be free before its value is read
    PlainClaim,       // a position is claimed by a load and a store
    EarlyEmpty        // as published: `empty` if the next slot isn't full yet, though a later one may be
};

template <Mistake mistake>
class Ring : public Any {
public:
    Ring() {
        for (std::size_t place = 0; place < capacity; ++place) {
            slots_[place].sequence.store(place);
        }
    }

    bool enqueue(std::uint64_t value) override {
        std::size_t position = tail_.load();
        for (;;) {
            Slot& slot = slots_[position % capacity];
            const std::size_t sequence = slot.sequence.load(std::memory_order_acquire);
            if (sequence == position && claim(tail_, position)) {
                if (mistake == Mistake::SequenceFirst) {
                    slot.sequence.store(position + 1, std::memory_order_release);
                    slot.value = value;
                } else {
                    slot.value = value;
                    slot.sequence.store(position + 1, std::memory_order_release);
                }
                return true;
            }
            if (sequence < position) {
                return false;
            }
            position = tail_.load();
        }
    }

    std::optional<std::uint64_t> dequeue() override {
        std::size_t position = head_.load();
        for (;;) {
            Slot& slot = slots_[position % capacity];
            const std::size_t sequence = slot.sequence.load(std::memory_order_acquire);
            if (sequence == position + 1 && claim(head_, position)) {
                if (mistake == Mistake::FreedEarly) {
                    slot.sequence.store(position + capacity, std::memory_order_release);
                }
                const std::uint64_t value = slot.value;
                slot.sequence.store(position + capacity, std::memory_order_release);
                return value;
            }
            if (sequence <= position) {
                if (mistake == Mistake::EarlyEmpty || tail_.load() == position) {
                    return std::nullopt;
                }
                std::this_thread::yield();
            }
            position = head_.load();
        }
    }

private:
    static constexpr std::size_t capacity = 8;

    static bool claim(std::atomic<std::size_t>& counter, std::size_t position) {
        if (mistake == Mistake::PlainClaim) {
            const bool is_same = counter.load() == position;
            if (is_same) {
                counter.store(position + 1);
            }
            return is_same;
        }
        return counter.compare_exchange_strong(position, position + 1);
    }

    struct Slot {
        std::atomic<std::size_t> sequence{0};
        std::uint64_t value = 0;
    };

    std::array<Slot, capacity> slots_;
    alignas(64) std::atomic<std::size_t> tail_{0};
    alignas(64) std::atomic<std::size_t> head_{0};
};

// A slot is free if it holds 0: nothing says for which turn of the ring it is.
template <std::size_t capacity>
class Unsequenced : public Any {
public:
    bool enqueue(std::uint64_t value) override {
        std::size_t tail = tail_.load();
        do {
            if (static_cast<std::ptrdiff_t>(tail - head_.load()) >= static_cast<std::ptrdiff_t>(capacity)) {
                return false;
            }
        } while (!tail_.compare_exchange_strong(tail, tail + 1));
        std::uint64_t free = 0;
        while (!slots_[tail % capacity].compare_exchange_strong(free, value + 1)) {
            free = 0;
        }
        return true;
    }

    std::optional<std::uint64_t> dequeue() override {
        std::size_t head = head_.load();
        do {
            if (static_cast<std::ptrdiff_t>(tail_.load() - head) <= 0) {
                return std::nullopt;
            }
        } while (!head_.compare_exchange_strong(head, head + 1));
        std::uint64_t value = 0;
        while ((value = slots_[head % capacity].exchange(0)) == 0) {
        }
        return value - 1;
    }

private:
    std::array<std::atomic<std::uint64_t>, capacity> slots_{};
    alignas(64) std::atomic<std::size_t> tail_{0};
    alignas(64) std::atomic<std::size_t> head_{0};
};

// For one producer and one consumer.
class Lamport : public Any {
public:
    bool enqueue(std::uint64_t value) override {
        const std::size_t tail = tail_.load(std::memory_order_relaxed);
        if (tail - head_.load(std::memory_order_acquire) == capacity) {
            return false;
        }
        slots_[tail % capacity] = value;
        tail_.store(tail + 1, std::memory_order_release);
        return true;
    }

    std::optional<std::uint64_t> dequeue() override {
        const std::size_t head = head_.load(std::memory_order_relaxed);
        if (head == tail_.load(std::memory_order_acquire)) {
            return std::nullopt;
        }
        const std::uint64_t value = slots_[head % capacity];
        head_.store(head + 1, std::memory_order_release);
        return value;
    }

private:
    static constexpr std::size_t capacity = 16;
    std::array<std::uint64_t, capacity> slots_{};
    alignas(64) std::atomic<std::size_t> tail_{0};
    alignas(64) std::atomic<std::size_t> head_{0};
};

#endif
