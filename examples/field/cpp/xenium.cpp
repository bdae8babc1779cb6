// Queues of xenium, with hazard pointers, and Michael and Scott's with counts of references too.
#include "field.hpp"

#include <xenium/kirsch_bounded_kfifo_queue.hpp>
#include <xenium/kirsch_kfifo_queue.hpp>
#include <xenium/michael_scott_queue.hpp>
#include <xenium/ramalhete_queue.hpp>
#include <xenium/reclamation/lock_free_ref_count.hpp>
#include <xenium/reclamation/hazard_pointer.hpp>
#include <xenium/vyukov_bounded_queue.hpp>

namespace {

using field::Found;
using field::Value;
using Hazards = xenium::policy::reclaimer<xenium::reclamation::hazard_pointer<>>;
using Counts = xenium::policy::reclaimer<xenium::reclamation::lock_free_ref_count<>>;

template <class Queue>
struct Values : field::Any {
    explicit Values(std::size_t) {}
    Queue queue;
    bool enqueue(Value value) override {
        queue.push(value);
        return true;
    }
    Found dequeue() override {
        return field::found([this](Value& value) { return queue.try_pop(value); });
    }
};

// It holds pointers that don't own: with std::unique_ptr a value that was popped can be freed again.
struct Ramalhete : field::Any {
    explicit Ramalhete(std::size_t) {}
    xenium::ramalhete_queue<Value*, Hazards> queue;
    bool enqueue(Value value) override {
        queue.push(new Value(value));
        return true;
    }
    Found dequeue() override {
        Value* found = nullptr;
        if (!queue.try_pop(found)) {
            return std::nullopt;
        }
        const std::unique_ptr<Value> owned(found);
        return *owned;
    }
};

template <class Queue>
struct Pointers : field::Any {
    template <class... Sizes>
    explicit Pointers(Sizes... sizes) : queue(sizes...) {}
    Queue queue;
    Found dequeue() override {
        std::unique_ptr<Value> found;
        return queue.try_pop(found) ? Found(*found) : std::nullopt;
    }
};

constexpr std::size_t k = 8;

struct KFifo : Pointers<xenium::kirsch_kfifo_queue<std::unique_ptr<Value>, Hazards>> {
    explicit KFifo(std::size_t) : Pointers(k) {}
    bool enqueue(Value value) override {
        queue.push(std::make_unique<Value>(value));
        return true;
    }
};

// The size is a number of segments of k values.
struct BoundedKFifo : Pointers<xenium::kirsch_bounded_kfifo_queue<std::unique_ptr<Value>>> {
    explicit BoundedKFifo(std::size_t size) : Pointers(k, size) {}
    bool enqueue(Value value) override { return queue.try_push(std::make_unique<Value>(value)); }
};

struct Strong : field::Any {
    explicit Strong(std::size_t size) : queue(size) {}
    xenium::vyukov_bounded_queue<Value> queue;
    bool enqueue(Value value) override { return queue.try_push_strong(value); }
    Found dequeue() override {
        return field::found([this](Value& value) { return queue.try_pop_strong(value); });
    }
};

struct Weak : Strong {
    using Strong::Strong;
    bool enqueue(Value value) override { return queue.try_push_weak(value); }
    Found dequeue() override {
        return field::found([this](Value& value) { return queue.try_pop_weak(value); });
    }
};

}    // namespace

int main(int count, char** words) {
    return field::run(count, words, {
        {"xenium-michael-scott", field::make<Values<xenium::michael_scott_queue<Value, Hazards>>>},
        {"xenium-michael-scott-counts", field::make<Values<xenium::michael_scott_queue<Value, Counts>>>},
        {"xenium-ramalhete", field::make<Ramalhete>},
        {"xenium-kfifo", field::make<KFifo>},
        {"xenium-kfifo-bounded", field::make<BoundedKFifo>},
        {"xenium-vyukov", field::make<Strong>},
        {"xenium-vyukov-weak", field::make<Weak>},
    });
}
