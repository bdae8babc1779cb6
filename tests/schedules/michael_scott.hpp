// The queue of Michael and Scott (PODC 1996) over nodes that are used again, with tagged links or hazard pointers, and
// ways to get it wrong.
#ifndef MICHAEL_SCOTT_HPP
#define MICHAEL_SCOTT_HPP

#include "any.hpp"

#include <array>
#include <atomic>
#include <cstddef>
#include <thread>
#include <vector>

// A node by its number, and how often the link was changed.
struct alignas(8) Link {
    std::uint32_t node;
    std::uint32_t tag;
    bool operator==(const Link& other) const { return node == other.node && tag == other.tag; }
    bool operator!=(const Link& other) const { return !(*this == other); }
};

constexpr std::uint32_t no_node = ~std::uint32_t{0};

struct Node {
    std::atomic<std::uint64_t> value{0};
    std::atomic<Link> next{Link{no_node, 0}};
    std::atomic<std::uint32_t> below{no_node};    // in the list of free nodes
};

// A stack of free nodes, with tags.
class Nodes {
public:
    Nodes() : nodes_(4096) {
        for (std::uint32_t node = 0; node < nodes_.size(); ++node) {
            give(node);
        }
    }

    Node& operator[](std::uint32_t node) { return nodes_[node]; }

    std::uint32_t take() {
        Link top = top_.load();
        while (top.node != no_node &&
               !top_.compare_exchange_weak(top, Link{nodes_[top.node].below.load(), top.tag + 1})) {
        }
        return top.node;
    }

    void give(std::uint32_t node) {
        Link top = top_.load();
        do {
            nodes_[node].below.store(top.node);
        } while (!top_.compare_exchange_weak(top, Link{node, top.tag + 1}));
    }

private:
    std::vector<Node> nodes_;
    std::atomic<Link> top_{Link{no_node, 0}};
};

enum class Slip {
    None,
    NoHelp,       // a dequeue doesn't look whether the tail lags behind
    PlainLink,    // the next node is stored, after a look, without a compare-and-swap
    HeadStore,    // so is the head
    NoTags,       // the ABA problem
    ValueLate,    // the value is read after the head has moved
    GivesUp       // after three lost races a dequeue says that the queue is empty
};

template <Slip slip>
class MichaelScott : public Any {
public:
    MichaelScott() {
        const std::uint32_t first = nodes_.take();
        head_.store(Link{first, 0});
        tail_.store(Link{first, 0});
    }

    bool enqueue(std::uint64_t value) override {
        const std::uint32_t node = nodes_.take();
        if (node == no_node) {
            return false;
        }
        nodes_[node].value.store(value, std::memory_order_relaxed);
        nodes_[node].next.store(changed(nodes_[node].next.load(), no_node));
        for (;;) {
            Link tail = tail_.load();
            Link next = nodes_[tail.node].next.load();
            if (tail != tail_.load()) {
                continue;
            }
            if (next.node != no_node) {
                tail_.compare_exchange_strong(tail, changed(tail, next.node));
            } else if (link(tail.node, next, node)) {
                tail_.compare_exchange_strong(tail, changed(tail, node));
                return true;
            }
        }
    }

    std::optional<std::uint64_t> dequeue() override {
        for (unsigned tries = 0; slip != Slip::GivesUp || tries < 3; ++tries) {
            Link head = head_.load();
            Link tail = tail_.load();
            const Link next = nodes_[head.node].next.load();
            if (head != head_.load()) {
                continue;
            }
            if (next.node == no_node) {
                return std::nullopt;
            }
            if (slip != Slip::NoHelp && head.node == tail.node) {
                tail_.compare_exchange_strong(tail, changed(tail, next.node));
                continue;
            }
            std::uint64_t value = nodes_[next.node].value.load(std::memory_order_relaxed);
            if (move_head(head, next.node)) {
                nodes_.give(head.node);
                value = slip == Slip::ValueLate ? nodes_[next.node].value.load(std::memory_order_relaxed) : value;
                return value;
            }
        }
        return std::nullopt;
    }

private:
    static Link changed(Link old, std::uint32_t node) { return Link{node, slip == Slip::NoTags ? 0 : old.tag + 1}; }

    bool link(std::uint32_t last, Link next, std::uint32_t node) {
        if (slip == Slip::PlainLink) {
            nodes_[last].next.store(changed(next, node));
            return true;
        }
        return nodes_[last].next.compare_exchange_strong(next, changed(next, node));
    }

    bool move_head(Link head, std::uint32_t node) {
        if (slip == Slip::HeadStore) {
            const bool is_same = head_.load() == head;
            if (is_same) {
                head_.store(changed(head, node));
            }
            return is_same;
        }
        return head_.compare_exchange_strong(head, changed(head, node));
    }

    Nodes nodes_;
    std::atomic<Link> head_{}, tail_{};
};

// With hazard pointers (Michael 2004) in place of tags: a node is used again once no place names it. An operation takes
// one of `places`; with too few of them it goes on without. Without `has_fence` the place may be seen too late.
template <unsigned places, bool has_fence>
class Hazards : public Any {
public:
    Hazards() {
        const std::uint32_t first = nodes_.take();
        head_.store(first);
        tail_.store(first);
    }

    bool enqueue(std::uint64_t value) override {
        const std::uint32_t node = nodes_.take();
        if (node == no_node) {
            return false;
        }
        nodes_[node].value.store(value, std::memory_order_relaxed);
        nodes_[node].next.store(Link{no_node, 0}, std::memory_order_relaxed);
        const unsigned place = take_place();
        for (;;) {
            std::uint32_t tail = protect(place, tail_);
            Link next = nodes_[tail].next.load(std::memory_order_acquire);
            if (next.node != no_node) {
                tail_.compare_exchange_strong(tail, next.node);
            } else if (nodes_[tail].next.compare_exchange_strong(next, Link{node, 0})) {
                tail_.compare_exchange_strong(tail, node);
                break;
            }
        }
        give_place(place);
        return true;
    }

    std::optional<std::uint64_t> dequeue() override {
        const unsigned place = take_place();
        std::optional<std::uint64_t> value;
        std::uint32_t head = no_node;
        for (;;) {
            head = protect(place, head_);
            std::uint32_t tail = tail_.load(std::memory_order_acquire);
            const Link next = nodes_[head].next.load(std::memory_order_acquire);
            if (head != head_.load(std::memory_order_acquire)) {
                continue;
            }
            if (next.node == no_node) {
                break;
            }
            if (head == tail) {
                tail_.compare_exchange_strong(tail, next.node);
                continue;
            }
            value = nodes_[next.node].value.load(std::memory_order_relaxed);
            if (head_.compare_exchange_strong(head, next.node)) {
                break;
            }
            value.reset();
        }
        give_place(place);
        if (value) {
            retire(head);
        }
        return value;
    }

private:
    struct alignas(64) Place {
        std::atomic<bool> is_taken{false};
        std::atomic<std::uint32_t> node{no_node};
    };

    unsigned take_place() {
        unsigned place = 0;
        while (place < places && places_[place].is_taken.exchange(true)) {
            ++place;
        }
        return place;
    }

    void give_place(unsigned place) {
        if (place < places) {
            places_[place].node.store(no_node, std::memory_order_release);
            places_[place].is_taken.store(false, std::memory_order_release);
        }
    }

    std::uint32_t protect(unsigned place, const std::atomic<std::uint32_t>& from) {
        for (;;) {
            const std::uint32_t node = from.load(std::memory_order_acquire);
            if (place == places) {
                return node;
            }
            places_[place].node.store(node, std::memory_order_release);
            if (has_fence) {
                std::atomic_thread_fence(std::memory_order_seq_cst);
            }
            if (from.load(std::memory_order_acquire) == node) {
                return node;
            }
        }
    }

    // Nodes that are named are left out of use.
    void retire(std::uint32_t node) {
        std::atomic_thread_fence(std::memory_order_seq_cst);
        for (const Place& place : places_) {
            if (place.node.load(std::memory_order_acquire) == node) {
                return;
            }
        }
        nodes_.give(node);
    }

    Nodes nodes_;
    std::atomic<std::uint32_t> head_{}, tail_{};
    std::array<Place, places> places_;
};

#endif
