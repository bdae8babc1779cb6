// Right queues that wait in each way that chosen schedules know, and some that aren't right and end a run in other ways.
// C++20, for std::atomic::wait.
//
//     waits                              lists them
//     waits QUEUE [RUNS [SEED]]
#include "../../examples/recorders/cpp/recorder.hpp"

#include "any.hpp"

#include <pthread.h>
#include <semaphore.h>
#include <time.h>

#include <atomic>
#include <chrono>
#include <condition_variable>
#include <deque>
#include <iostream>
#include <memory>
#include <mutex>
#include <random>
#include <shared_mutex>
#include <string>
#include <thread>

namespace {

using namespace std::chrono_literals;

// A list under some lock.
template <class Lock>
class Locked : public Any {
public:
    bool enqueue(std::uint64_t value) override {
        const std::lock_guard<Lock> guard(lock_);
        values_.push_back(value);
        return true;
    }

    std::optional<std::uint64_t> dequeue() override {
        const std::lock_guard<Lock> guard(lock_);
        if (values_.empty()) {
            return std::nullopt;
        }
        const std::uint64_t value = values_.front();
        values_.pop_front();
        return value;
    }

private:
    Lock lock_;
    std::deque<std::uint64_t> values_;
};

// Locked twice by one thread.
struct Recursive {
    std::recursive_mutex mutex;
    void lock() {
        mutex.lock();
        mutex.lock();
    }
    void unlock() {
        mutex.unlock();
        mutex.unlock();
    }
};

struct Timed {
    std::timed_mutex mutex;
    void lock() {
        while (!mutex.try_lock_for(1h)) {
        }
    }
    void unlock() { mutex.unlock(); }
};

struct Shared {
    std::shared_mutex mutex;
    void lock() {
        mutex.lock_shared();
        mutex.unlock_shared();
        mutex.lock();
    }
    void unlock() { mutex.unlock(); }
};

struct Tried {
    std::mutex mutex;
    void lock() {
        while (!mutex.try_lock()) {
            std::this_thread::yield();
        }
    }
    void unlock() { mutex.unlock(); }
};

struct Slept {
    std::atomic_flag flag = ATOMIC_FLAG_INIT;
    void lock() {
        while (flag.test_and_set()) {
            std::this_thread::sleep_for(1s);
        }
    }
    void unlock() { flag.clear(); }
};

struct Spun {
    pthread_spinlock_t spin;
    Spun() { pthread_spin_init(&spin, PTHREAD_PROCESS_PRIVATE); }
    ~Spun() { pthread_spin_destroy(&spin); }
    void lock() { pthread_spin_lock(&spin); }
    void unlock() { pthread_spin_unlock(&spin); }
};

struct Counted {
    sem_t free;
    Counted() { sem_init(&free, 0, 1); }
    ~Counted() { sem_destroy(&free); }
    void lock() {
        while (sem_wait(&free) != 0) {
        }
    }
    void unlock() { sem_post(&free); }
};

// By std::atomic::wait, which is a futex.
struct Futex {
    std::atomic<int> taken{0};
    void lock() {
        while (taken.exchange(1) != 0) {
            taken.wait(1);
        }
    }
    void unlock() {
        taken.store(0);
        taken.notify_one();
    }
};

// A condition with a limit of time, which passes when nothing else can go on.
struct Late {
    std::mutex mutex;
    std::condition_variable is_free;
    bool is_taken = false;
    void lock() {
        std::unique_lock<std::mutex> guard(mutex);
        while (is_taken) {
            is_free.wait_for(guard, 1h);
        }
        is_taken = true;
    }
    void unlock() {
        const std::lock_guard<std::mutex> guard(mutex);
        is_taken = false;    // without a signal
    }
};

// What it needs is made by the first who comes.
struct Once {
    std::once_flag once;
    std::unique_ptr<std::mutex> mutex;
    void lock() {
        std::call_once(once, [this] { mutex = std::make_unique<std::mutex>(); });
        mutex->lock();
    }
    void unlock() { mutex->unlock(); }
};

// Four threads go through one operation at a time together.
struct Together {
    pthread_barrier_t barrier;
    std::mutex mutex;
    Together() { pthread_barrier_init(&barrier, nullptr, 4); }
    ~Together() { pthread_barrier_destroy(&barrier); }
    void lock() {
        pthread_barrier_wait(&barrier);
        mutex.lock();
    }
    void unlock() { mutex.unlock(); }
};

// One thread more takes the lock first; it isn't the recorder's.
struct Joined {
    std::mutex mutex;
    std::atomic<bool> has_begun{false};
    void lock() {
        if (!has_begun.exchange(true)) {
            std::thread([this] { const std::lock_guard<std::mutex> guard(mutex); }).join();
        }
        mutex.lock();
    }
    void unlock() { mutex.unlock(); }
};

// Reads a clock until an hour has passed, which is no time here.
struct Clocked {
    std::mutex mutex;
    void lock() {
        while (!mutex.try_lock()) {
            const auto until = std::chrono::steady_clock::now() + 1h;
            while (std::chrono::steady_clock::now() < until) {
                std::this_thread::sleep_for(5min);
            }
        }
    }
    void unlock() { mutex.unlock(); }
};

// Wrong, and never the same twice: what it does depends on real input.
class Chance : public Locked<std::mutex> {
public:
    std::optional<std::uint64_t> dequeue() override {
        return std::random_device()() % 8 == 0 ? std::nullopt : Locked<std::mutex>::dequeue();
    }
};

// Crashes in the middle of a run.
class Crash : public Locked<std::mutex> {
public:
    std::optional<std::uint64_t> dequeue() override {
        if (calls_.fetch_add(1) == 40) {
            std::abort();
        }
        return Locked<std::mutex>::dequeue();
    }

private:
    std::atomic<unsigned> calls_{0};
};

// Waits for something that no point shows.
class Reads : public Locked<std::mutex> {
public:
    std::optional<std::uint64_t> dequeue() override {
        while (calls_.fetch_add(1) == 40) {
            for (volatile bool waits = true; waits;) {
            }
        }
        return Locked<std::mutex>::dequeue();
    }

private:
    std::atomic<unsigned> calls_{0};
};

using Made = std::unique_ptr<Any>;

template <class Queue>
Made make() {
    return std::make_unique<Queue>();
}

struct Named {
    const char* name;
    Made (*make)();
    bool drains;
    bool is_right;
};

constexpr Named queues[] = {
    {"recursive", make<Locked<Recursive>>, true, true}, {"timed", make<Locked<Timed>>, true, true},
    {"shared", make<Locked<Shared>>, true, true},       {"tried", make<Locked<Tried>>, true, true},
    {"slept", make<Locked<Slept>>, true, true},         {"spun", make<Locked<Spun>>, true, true},
    {"counted", make<Locked<Counted>>, true, true},     {"futex", make<Locked<Futex>>, true, true},
    {"late", make<Locked<Late>>, true, true},           {"once", make<Locked<Once>>, true, true},
    {"together", make<Locked<Together>>, false, true},  {"joined", make<Locked<Joined>>, true, true},
    {"clocked", make<Locked<Clocked>>, true, true},     {"chance", make<Chance>, true, false},
    {"crash", make<Crash>, true, false},                {"reads", make<Reads>, true, false},
};

}    // namespace

int main(int count, char** words) {
    for (const Named& queue : queues) {
        if (count == 1) {
            std::cout << queue.name << (queue.is_right ? ": right\n" : ": not right\n");
        } else if (queue.name == std::string(words[1])) {
            fifobench::Settings settings;
            settings.runs = count > 2 ? static_cast<unsigned>(std::stoul(words[2])) : 0;
            settings.seed = count > 3 ? std::stoul(words[3]) : 1;
            settings.drain = queue.drains;
            settings.timeout = 2s;
            return fifobench::search(settings, queue.make);
        }
    }
    return count == 1 ? 0 : 2;
}
