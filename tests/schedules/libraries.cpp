// Queues of libraries that Debian has, unchanged, for chosen schedules. Those whose headers aren't there are left out.
//
//     libraries                                         lists them, and those that are left out
//     libraries QUEUE [--runs R] [--threads T] [--ops N] [--seed S] [--folder F]
#include "../../examples/recorders/cpp/recorder.hpp"

#include "any.hpp"

#include <iostream>
#include <memory>
#include <string>
#include <vector>

#if __has_include(<boost/lockfree/queue.hpp>)
#include <boost/lockfree/queue.hpp>
#include <boost/lockfree/spsc_queue.hpp>
#define HAS_BOOST
#endif
#if __has_include(<concurrentqueue/concurrentqueue.h>)
#include <concurrentqueue/concurrentqueue.h>
#define HAS_MOODYCAMEL
#endif
#if __has_include(<tbb/concurrent_queue.h>) && !defined WITHOUT_TBB
#include <tbb/concurrent_queue.h>
#define HAS_TBB
#endif
#if __has_include(<xenium/michael_scott_queue.hpp>)
#include <xenium/michael_scott_queue.hpp>
#include <xenium/ramalhete_queue.hpp>
#include <xenium/reclamation/hazard_pointer.hpp>
#include <xenium/vyukov_bounded_queue.hpp>
#define HAS_XENIUM
#endif
#if __has_include(<atomic_queue/atomic_queue.h>)
#include <atomic_queue/atomic_queue.h>
#define HAS_ATOMIC_QUEUE
#endif

namespace {

using Value = std::uint64_t;

// Calls `try_take(value)`, which returns whether there was one.
template <class Try>
std::optional<Value> taken(Try try_take) {
    Value value = 0;
    return try_take(value) ? std::optional<Value>(value) : std::nullopt;
}

#ifdef HAS_BOOST
class Boost : public Any {
public:
    bool enqueue(Value value) override { return queue_.push(value); }
    std::optional<Value> dequeue() override {
        return taken([this](Value& value) { return queue_.pop(value); });
    }

private:
    boost::lockfree::queue<Value> queue_{16};
};

class BoostOneToOne : public Any {
public:
    bool enqueue(Value value) override { return queue_.push(value); }
    std::optional<Value> dequeue() override {
        return taken([this](Value& value) { return queue_.pop(value); });
    }

private:
    boost::lockfree::spsc_queue<Value> queue_{16};
};
#endif

#ifdef HAS_MOODYCAMEL
class Moodycamel : public Any {
public:
    bool enqueue(Value value) override { return queue_.enqueue(value); }
    std::optional<Value> dequeue() override {
        return taken([this](Value& value) { return queue_.try_dequeue(value); });
    }

private:
    moodycamel::ConcurrentQueue<Value> queue_;
};
#endif

#ifdef HAS_TBB
class Tbb : public Any {
public:
    bool enqueue(Value value) override {
        queue_.push(value);
        return true;
    }
    std::optional<Value> dequeue() override {
        return taken([this](Value& value) { return queue_.try_pop(value); });
    }

private:
    tbb::concurrent_queue<Value> queue_;
};
#endif

#ifdef HAS_XENIUM
using Reclaimed = xenium::policy::reclaimer<xenium::reclamation::hazard_pointer<>>;

template <class Queue>
class Xenium : public Any {
public:
    bool enqueue(Value value) override {
        queue_.push(value);
        return true;
    }
    std::optional<Value> dequeue() override {
        return taken([this](Value& value) { return queue_.try_pop(value); });
    }

private:
    Queue queue_;
};

// This one takes pointers.
class XeniumRamalhete : public Any {
public:
    bool enqueue(Value value) override {
        queue_.push(new Value(value));
        return true;
    }
    std::optional<Value> dequeue() override {
        Value* found = nullptr;
        if (!queue_.try_pop(found)) {
            return std::nullopt;
        }
        const std::unique_ptr<Value> owned(found);
        return *owned;
    }

private:
    xenium::ramalhete_queue<Value*, Reclaimed> queue_;
};

class XeniumVyukov : public Any {
public:
    bool enqueue(Value value) override { return queue_.try_push_strong(value); }
    std::optional<Value> dequeue() override {
        return taken([this](Value& value) { return queue_.try_pop_strong(value); });
    }

private:
    xenium::vyukov_bounded_queue<Value> queue_{8};
};
#endif

#ifdef HAS_ATOMIC_QUEUE
// 0 means an empty slot there.
template <unsigned slots>
class AtomicQueue : public Any {
public:
    bool enqueue(Value value) override { return queue_.try_push(value + 1); }
    std::optional<Value> dequeue() override {
        Value value = 0;
        return queue_.try_pop(value) ? std::optional<Value>(value - 1) : std::nullopt;
    }

private:
    atomic_queue::AtomicQueue<Value, slots> queue_;
};
#endif

using Made = std::unique_ptr<Any>;

template <class Queue>
Made make() {
    return std::make_unique<Queue>();
}

// The library of each, and what a search finds: nothing in a right queue.
struct Named {
    const char* name;
    Made (*make)();    // null: left out
    bool is_one_to_one;
    const char* what;
};

constexpr Named queues[] = {
#ifdef HAS_BOOST
    {"boost", make<Boost>, false, "right"},
    {"boost-spsc", make<BoostOneToOne>, true, "right"},
#else
    {"boost", nullptr, false, "libboost-dev"},
#endif
#ifdef HAS_TBB
    {"tbb", make<Tbb>, false, "right"},
#else
    {"tbb", nullptr, false, "libtbb-dev"},
#endif
#ifdef HAS_XENIUM
    {"xenium-ms", make<Xenium<xenium::michael_scott_queue<Value, Reclaimed>>>, false, "right"},
    {"xenium-ramalhete", make<XeniumRamalhete>, false, "right"},
    {"xenium-vyukov", make<XeniumVyukov>, false, "right"},
#else
    {"xenium", nullptr, false, "libxenium-dev"},
#endif
#ifdef HAS_MOODYCAMEL
    {"moodycamel", make<Moodycamel>, false, "no order among producers, as its pages say"},
#else
    {"moodycamel", nullptr, false, "libconcurrentqueue-dev"},
#endif
#ifdef HAS_ATOMIC_QUEUE
    {"atomic-queue-8", make<AtomicQueue<8>>, false, "slots without sequences"},
    {"atomic-queue-32", make<AtomicQueue<32>>, false, "slots without sequences"},
#else
    {"atomic-queue", nullptr, false, "libatomic-queue-dev"},
#endif
};

void set(fifobench::Settings& settings, const std::string& option, const std::string& word) {
    if (option == "--folder") {
        settings.folder = word;
        return;
    }
    if (word.empty() || word.size() > 9 || word.find_first_not_of("0123456789") != std::string::npos) {
        throw std::invalid_argument("no number behind " + option);
    }
    const auto number = static_cast<unsigned>(std::stoul(word));
    if (option == "--runs") settings.runs = number;
    else if (option == "--threads") settings.threads = number;
    else if (option == "--ops") settings.operations = number;
    else if (option == "--seed") settings.seed = number;
    else throw std::invalid_argument("no option '" + option + "'");
}

int run(const std::vector<std::string>& words) {
    for (const Named& queue : queues) {
        if (words.empty()) {
            std::cout << queue.name << (queue.make != nullptr ? ": " : ": left out, without ") << queue.what << '\n';
        } else if (words[0] == queue.name && queue.make != nullptr) {
            fifobench::Settings settings;
            if (queue.is_one_to_one) {
                settings.threads = 2;
                settings.pattern = fifobench::Pattern::Roles;
            }
            for (std::size_t place = 1; place < words.size(); place += 2) {
                set(settings, words[place], place + 1 < words.size() ? words[place + 1] : "");
            }
            return fifobench::search(settings, queue.make);
        }
    }
    if (words.empty()) {
        return 0;
    }
    throw std::invalid_argument("no queue '" + words[0] + "': libraries without an argument lists them");
}

}    // namespace

int main(int count, char** words) {
    try {
        return run(std::vector<std::string>(words + 1, words + count));
    } catch (const std::exception& exception) {
        std::cerr << "libraries: " << exception.what() << '\n';
        return 2;
    }
}
