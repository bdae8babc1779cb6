// Queues of libcds, with hazard pointers (HP) or dynamic ones (DHP).
#include "field.hpp"

#include <cds/container/basket_queue.h>
#include <cds/container/fcdeque.h>
#include <cds/container/fcqueue.h>
#include <cds/container/moir_queue.h>
#include <cds/container/msqueue.h>
#include <cds/container/optimistic_queue.h>
#include <cds/container/rwqueue.h>
#include <cds/container/segmented_queue.h>
#include <cds/container/vyukov_mpmc_cycle_queue.h>
#include <cds/container/weak_ringbuffer.h>
#include <cds/gc/dhp.h>
#include <cds/gc/hp.h>
#include <cds/init.h>

namespace {

using cds::gc::DHP;
using cds::gc::HP;
using field::Found;
using field::Value;

// Each thread registers with the library.
struct Registered : field::Any {
    void enter(unsigned) override { cds::threading::Manager::attachThread(); }
    void leave(unsigned) override { cds::threading::Manager::detachThread(); }
};

template <class Queue>
struct Bounded : Registered {
    explicit Bounded(std::size_t size) : queue(size) {}
    Queue queue;
    bool enqueue(Value value) override { return queue.enqueue(value); }
    Found dequeue() override {
        return field::found([this](Value& value) { return queue.dequeue(value); });
    }
};

template <class Queue>
struct Unbounded : Registered {
    explicit Unbounded(std::size_t) {}
    Queue queue;
    bool enqueue(Value value) override { return queue.enqueue(value); }
    Found dequeue() override {
        return field::found([this](Value& value) { return queue.dequeue(value); });
    }
};

struct Deque : Registered {
    explicit Deque(std::size_t) {}
    cds::container::FCDeque<Value> queue;
    bool enqueue(Value value) override { return queue.push_back(value); }
    Found dequeue() override {
        return field::found([this](Value& value) { return queue.pop_front(value); });
    }
};

// Segments of 8 values.
struct Segmented : Bounded<cds::container::SegmentedQueue<HP, Value>> {
    explicit Segmented(std::size_t) : Bounded(8) {}
};

struct WeakRing : Registered {
    explicit WeakRing(std::size_t size) : queue(size) {}
    cds::container::WeakRingBuffer<Value> queue;
    bool enqueue(Value value) override { return queue.push(value); }
    Found dequeue() override {
        return field::found([this](Value& value) { return queue.pop(value); });
    }
};

}    // namespace

int main(int count, char** words) {
    cds::Initialize();
    int status = 0;
    {
        const HP hazards;
        const DHP dynamic_hazards;
        cds::threading::Manager::attachThread();
        status = field::run(count, words, {
            {"libcds-michael-scott", field::make<Unbounded<cds::container::MSQueue<HP, Value>>>},
            {"libcds-michael-scott-dhp", field::make<Unbounded<cds::container::MSQueue<DHP, Value>>>},
            {"libcds-moir", field::make<Unbounded<cds::container::MoirQueue<HP, Value>>>},
            {"libcds-basket", field::make<Unbounded<cds::container::BasketQueue<HP, Value>>>},
            {"libcds-optimistic", field::make<Unbounded<cds::container::OptimisticQueue<HP, Value>>>},
            {"libcds-two-lock", field::make<Unbounded<cds::container::RWQueue<Value>>>},
            {"libcds-flat-combining", field::make<Unbounded<cds::container::FCQueue<Value>>>},
            {"libcds-flat-combining-deque", field::make<Deque>},
            {"libcds-vyukov", field::make<Bounded<cds::container::VyukovMPMCCycleQueue<Value>>>},
            {"libcds-weak-ring", field::make<WeakRing>},
            {"libcds-segmented", field::make<Segmented>},
        });
        cds::threading::Manager::detachThread();
    }
    cds::Terminate();
    return status;
}
