// Queues with locks, right ones and wrong ones.
#ifndef LOCKED_HPP
#define LOCKED_HPP

#include "any.hpp"

#include <array>
#include <atomic>
#include <condition_variable>
#include <cstddef>
#include <deque>
#include <mutex>
#include <shared_mutex>
#include <thread>

using Values = std::deque<std::uint64_t>;

// Takes the first value. The caller has the lock.
inline std::optional<std::uint64_t> take_first(Values& values) {
    if (values.empty()) {
        return std::nullopt;
    }
    const std::uint64_t value = values.front();
    values.pop_front();
    return value;
}

// The size is counted beside the list, outside of its lock.
class Counted : public Any {
public:
    bool enqueue(std::uint64_t value) override {
        {
            const std::lock_guard<std::mutex> guard(lock_);
            values_.push_back(value);
        }
        size_.fetch_add(1);
        return true;
    }

    std::optional<std::uint64_t> dequeue() override {
        if (size_.load() <= 0) {
            return std::nullopt;
        }
        std::optional<std::uint64_t> value;
        {
            const std::lock_guard<std::mutex> guard(lock_);
            value = take_first(values_);
        }
        size_.fetch_sub(value ? 1 : 0);
        return value;
    }

private:
    std::mutex lock_;
    Values values_;
    std::atomic<std::int64_t> size_{0};
};

// The first value is looked at under a shared lock, and removed under an exclusive one without another look.
class Upgraded : public Any {
public:
    bool enqueue(std::uint64_t value) override {
        const std::unique_lock<std::shared_mutex> guard(lock_);
        values_.push_back(value);
        return true;
    }

    std::optional<std::uint64_t> dequeue() override {
        std::uint64_t first = 0;
        {
            const std::shared_lock<std::shared_mutex> guard(lock_);
            if (values_.empty()) {
                return std::nullopt;
            }
            first = values_.front();
        }
        const std::unique_lock<std::shared_mutex> guard(lock_);
        take_first(values_);
        return first;
    }

private:
    std::shared_mutex lock_;
    Values values_;
};

// Values are pushed to a stack. A dequeue that finds no values in order takes the stack, reverses it, and adds it to
// those in order; meanwhile they are in neither.
class Reversed : public Any {
public:
    ~Reversed() override {
        while (stack_.load() != nullptr) {
            pop_all(stack_.exchange(nullptr));
        }
    }

    bool enqueue(std::uint64_t value) override {
        auto* const node = new Node{value, stack_.load()};
        while (!stack_.compare_exchange_weak(node->below, node)) {
        }
        return true;
    }

    std::optional<std::uint64_t> dequeue() override {
        {
            const std::lock_guard<std::mutex> guard(lock_);
            if (!in_order_.empty()) {
                return take_first(in_order_);
            }
        }
        const Values more = pop_all(stack_.exchange(nullptr));
        const std::lock_guard<std::mutex> guard(lock_);
        in_order_.insert(in_order_.end(), more.begin(), more.end());
        return take_first(in_order_);
    }

private:
    struct Node {
        std::uint64_t value;
        Node* below;
    };

    static Values pop_all(Node* top) {
        Values values;
        while (top != nullptr) {
            values.push_front(top->value);
            Node* const below = top->below;
            delete top;
            top = below;
        }
        return values;
    }

    std::mutex lock_;
    Values in_order_;
    std::atomic<Node*> stack_{nullptr};
};

// One lock for each end (Michael and Scott 1996). The wrong one has no dummy node, and takes both locks if the list is
// or becomes empty, each operation its own first.
class TwoLock : public Any {
public:
    TwoLock() : head_(new Node), tail_(head_) {}

    ~TwoLock() override {
        while (dequeue()) {
        }
        delete head_;
    }

    bool enqueue(std::uint64_t value) override {
        auto* const node = new Node;
        node->value = value;
        const std::lock_guard<std::mutex> guard(tail_lock_);
        tail_->next.store(node, std::memory_order_release);
        tail_ = node;
        return true;
    }

    std::optional<std::uint64_t> dequeue() override {
        const std::lock_guard<std::mutex> guard(head_lock_);
        Node* const old = head_;
        Node* const next = old->next.load(std::memory_order_acquire);
        if (next == nullptr) {
            return std::nullopt;
        }
        head_ = next;
        delete old;
        return next->value;
    }

private:
    struct Node {
        std::uint64_t value = 0;
        std::atomic<Node*> next{nullptr};
    };

    std::mutex head_lock_, tail_lock_;
    Node* head_;
    Node* tail_;
};

class CrossedLocks : public Any {
public:
    bool enqueue(std::uint64_t value) override {
        const std::lock_guard<std::mutex> guard(tail_lock_);
        std::unique_lock<std::mutex> both(head_lock_, std::defer_lock);
        if (size_.load() <= 1) {
            both.lock();
        }
        const std::lock_guard<std::mutex> list(list_lock_);
        values_.push_back(value);
        size_.store(values_.size());
        return true;
    }

    std::optional<std::uint64_t> dequeue() override {
        const std::lock_guard<std::mutex> guard(head_lock_);
        std::unique_lock<std::mutex> both(tail_lock_, std::defer_lock);
        if (size_.load() <= 1) {
            both.lock();
        }
        const std::lock_guard<std::mutex> list(list_lock_);
        const auto value = take_first(values_);
        size_.store(values_.size());
        return value;
    }

private:
    std::mutex head_lock_, tail_lock_, list_lock_;
    Values values_;
    std::atomic<std::size_t> size_{0};
};

// A dequeue waits for a value. The wrong one wakes a waiting thread only if the list was empty; so of two that wait one
// may sleep on beside a value.
template <bool always>
class Blocking : public Any {
public:
    bool enqueue(std::uint64_t value) override {
        const std::lock_guard<std::mutex> guard(lock_);
        values_.push_back(value);
        if (always || values_.size() == 1) {
            has_value_.notify_one();
        }
        return true;
    }

    std::optional<std::uint64_t> dequeue() override {
        std::unique_lock<std::mutex> guard(lock_);
        while (values_.empty()) {
            has_value_.wait(guard);
        }
        return take_first(values_);
    }

private:
    std::mutex lock_;
    std::condition_variable has_value_;
    Values values_;
};

// A spin lock that is left locked where a dequeue finds nothing.
class StaysLocked : public Any {
public:
    bool enqueue(std::uint64_t value) override {
        lock();
        values_.push_back(value);
        is_locked_.store(false, std::memory_order_release);
        return true;
    }

    std::optional<std::uint64_t> dequeue() override {
        lock();
        if (values_.empty()) {
            return std::nullopt;
        }
        const auto value = take_first(values_);
        is_locked_.store(false, std::memory_order_release);
        return value;
    }

private:
    void lock() {
        while (is_locked_.exchange(true, std::memory_order_acquire)) {
        }
    }

    std::atomic<bool> is_locked_{false};
    Values values_;
};

// A lock as that of Dekker: a thread raises its flag, and goes in if no other flag is up. It needs its store before its
// loads, which no weaker order than the sequentially consistent one gives.
template <std::memory_order raising>
class Flags : public Any {
public:
    void enter(unsigned thread) override { own_ = thread; }

    bool enqueue(std::uint64_t value) override {
        lock();
        place(values_, count_++) = value;
        unlock();
        return true;
    }

    std::optional<std::uint64_t> dequeue() override {
        std::optional<std::uint64_t> value;
        lock();
        if (taken_ < count_) {
            value = place(values_, taken_++);
        }
        unlock();
        return value;
    }

private:
    static constexpr unsigned most_threads = 8;
    static constexpr std::size_t capacity = 8192;
    using Places = std::array<std::uint64_t, capacity>;

    static std::uint64_t& place(Places& values, std::size_t number) { return values[number % capacity]; }

    bool is_alone() const {
        for (unsigned other = 0; other < most_threads; ++other) {
            if (other != own_ && flags_[other].load(std::memory_order_acquire) != 0) {
                return false;
            }
        }
        return true;
    }

    void lock() {
        for (;;) {
            flags_[own_].store(1, raising);
            if (is_alone()) {
                return;
            }
            unlock();
            std::this_thread::yield();
        }
    }

    void unlock() { flags_[own_].store(0, std::memory_order_release); }

    static inline thread_local unsigned own_ = 0;
    std::array<std::atomic<int>, most_threads> flags_{};
    Places values_{};
    std::size_t count_ = 0, taken_ = 0;
};

// Each enqueue leaves its value at a place of its own before it is moved into the list under the lock. There are three
// places, and a fourth enqueue at once takes the first.
class ThreePlaces : public Any {
public:
    bool enqueue(std::uint64_t value) override {
        unsigned place = 0;
        while (place < places && places_[place].is_taken.exchange(true)) {
            ++place;
        }
        Place& own = places_[place % places];
        own.value.store(value);
        {
            const std::lock_guard<std::mutex> guard(lock_);
            values_.push_back(own.value.load());
        }
        own.is_taken.store(false);
        return true;
    }

    std::optional<std::uint64_t> dequeue() override {
        const std::lock_guard<std::mutex> guard(lock_);
        return take_first(values_);
    }

private:
    static constexpr unsigned places = 3;

    struct Place {
        std::atomic<bool> is_taken{false};
        std::atomic<std::uint64_t> value{0};
    };

    std::array<Place, places> places_;
    std::mutex lock_;
    Values values_;
};

#endif
