// The points of schedule.c as recorder.hpp uses them: if they are linked, and nothing else if they aren't.
#ifndef FIFOBENCH_FOR_RECORDER_HPP
#define FIFOBENCH_FOR_RECORDER_HPP

#include "schedule.h"

#include <atomic>
#include <cstddef>
#include <cstdint>
#include <cstdlib>
#include <exception>
#include <iostream>
#include <optional>
#include <stdexcept>
#include <string>
#include <vector>

// Calls a function of this file.
#define FIFOBENCH_POINTS(call) (::fifobench::detail::points::call)

// Within a run: calls this function of schedule.h, if the run's schedule is chosen.
#define FIFOBENCH_IF_CHOSEN(call) (is_chosen_ ? fifobench_schedule_##call : (void)0)

namespace fifobench::detail::points {

inline bool are_linked() { return fifobench_schedule_begin != nullptr; }
inline bool are_chosen() { return are_linked() && fifobench_schedule_is_chosen() != 0; }

// Begins a run, whose start is open if its schedule is chosen: the schedule says who begins.
template <class Settings, class Start>
void begin(const Settings& settings, const std::vector<std::uint64_t>& initial, Start& start, bool& is_chosen) {
    is_chosen = settings.choose && are_chosen();
    if (!is_chosen) {
        return;
    }
    const struct fifobench_schedule schedule {settings.seed, settings.threads, settings.operations,
                                              settings.folder.c_str()};
    if (const char* const fault = fifobench_schedule_begin(&schedule)) {
        throw std::runtime_error(fault);
    }
    for (const std::uint64_t value : initial) {
        fifobench_schedule_initial(value);
    }
    start.open();
}

template <class What>
bool is_call(What what) { return what == What::CallEnq || what == What::CallDeq; }

// Before the ticket of an event is drawn.
template <class What>
void notes(What what) {
    if (are_linked() && !is_call(what)) {
        fifobench_schedule_returns();
    }
}

// After it was drawn.
template <class What>
void noted(What what, std::uint64_t value) {
    if (are_linked()) {
        (is_call(what) ? fifobench_schedule_called : fifobench_schedule_returned)(static_cast<unsigned>(what), value);
    }
}

// Before a search of free runs. Says once if schedule.o is missing, unless free runs are asked for.
inline void free_runs(bool choose) {
    static std::atomic_flag is_told = ATOMIC_FLAG_INIT;
    const char* const wanted = std::getenv("FIFOBENCH_SCHEDULES");
    const bool is_asked_for = !choose || (wanted != nullptr && std::string(wanted) == "free");
    if (are_linked()) {
        fifobench_schedule_disturb();
    } else if (FIFOBENCH_HAS_POINTS != 0 && !is_asked_for && !is_told.test_and_set()) {
        std::cerr << FIFOBENCH_LACKS_SCHEDULE;
    }
}

// The settings of one run of a search. Those of recorder.hpp, as all of these types are.
template <class Settings>
Settings settings_of(Settings one, std::uint64_t seed, std::size_t operations) {
    one.seed = seed;
    one.operations = operations;
    one.pattern = one.pattern_of_seed();
    return one;
}

// The flags of `check` that are a condition.
constexpr const char* condition_flags[] = {"", " --local", " --weak-empty", " --local --weak-empty"};

// Has `run_one(settings)` make the runs of a search whose schedules are chosen, each in a child process; the answer is
// that of search_runs. There is none if they aren't chosen: the caller makes free runs.
template <class Settings, class RunOne>
void search(const Settings& settings, RunOne& run_one, std::optional<int>& answer) {
    if (!settings.choose || !are_chosen()) {
        free_runs(settings.choose);
        return;
    }
    struct Context {
        const Settings& settings;
        RunOne& run_one;
    } context{settings, run_one};
    struct fifobench_search chosen {};
    chosen.program = settings.program.c_str();
    chosen.folder = settings.folder.c_str();
    chosen.seed = settings.seed;
    chosen.runs = settings.runs;
    chosen.threads = settings.threads;
    chosen.operations = settings.operations;
    chosen.seconds = static_cast<unsigned>((settings.timeout.count() + 999) / 1000);
    chosen.keep = settings.keep ? 1 : 0;
    chosen.context = &context;
    chosen.flags = condition_flags[static_cast<unsigned>(settings.condition)];
    chosen.is_bounded = settings.overtaken_at_most ? 1 : 0;
    chosen.overtaken_at_most = settings.overtaken_at_most.value_or(0);
    chosen.run = [](void* of, std::uint64_t seed, std::size_t operations) {
        const auto& [all, run] = *static_cast<Context*>(of);
        try {
            const auto history = run(settings_of(all, seed, operations));
            if (history.has_failed()) {
                fifobench_schedule_fail(history.notes().front().c_str());
            }
        } catch (const std::exception& exception) {
            fifobench_schedule_fail(exception.what());
        }
    };
    chosen.pattern = [](void* of, std::uint64_t seed) {
        return name_of(*settings_of(static_cast<Context*>(of)->settings, seed, 0).pattern);
    };
    answer = fifobench_search_runs(&chosen);
}

}    // namespace fifobench::detail::points

#endif
