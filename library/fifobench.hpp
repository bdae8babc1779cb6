// The functions of fifobench.h for C++17: texts in, answers out.
//
//     const fifobench::Answer answer = fifobench::check(text);
//     if (!answer.is_yes()) {
//         std::cerr << fifobench::shrink(text).text;
//     }
//
// In a test, with the recorder's history or a text:
//
//     fifobench::expect_linearizable(history);    // fails the test, and shows what went wrong and its picture
//
// A function throws std::bad_alloc if there is no memory for the text of the answer. If there is none for judging, the
// status is Status::fault. All functions may be called from several threads at once.
#ifndef FIFOBENCH_HPP
#define FIFOBENCH_HPP

#include "fifobench.h"

#include <cstddef>
#include <cstdint>
#include <cstdio>
#include <cstdlib>
#include <sstream>
#include <string>
#include <string_view>
#include <utility>
#include <vector>

namespace fifobench {

enum class Status : std::uint8_t { yes = 0, no = 1, refused = 2, fault = 3 };

// An answer: the text that the program writes, and its status.
struct Answer {
    Status status;
    std::string text;

    // Whether it is YES or VALID.
    bool is_yes() const { return status == Status::yes; }

    // Its first line, such as "NO VOrd".
    std::string_view first_line() const { return std::string_view(text).substr(0, text.find('\n')); }
};

namespace detail {

// Calls the function with the room that most answers need, and again with the needed room if that isn't enough.
template <class Call>
Answer answer(std::size_t room, Call call) {
    Answer answer{Status::fault, std::string(room, '\0')};
    for (;;) {
        std::size_t needed = 0;
        auto* const buffer = reinterpret_cast<std::uint8_t*>(answer.text.data());
        answer.status = static_cast<Status>(call(buffer, answer.text.size(), &needed));
        const bool fits = needed <= answer.text.size();
        answer.text.resize(needed);
        if (fits) {
            return answer;
        }
    }
}

using TextJudge = std::uint8_t(const std::uint8_t*, std::size_t, std::uint8_t*, std::size_t, std::size_t*);

inline Answer judge(TextJudge* function, std::string_view text) {
    const auto* const bytes = reinterpret_cast<const std::uint8_t*>(text.data());
    return answer(text.size() + 64, [&](std::uint8_t* buffer, std::size_t capacity, std::size_t* needed) {
        return function(bytes, text.size(), buffer, capacity, needed);
    });
}

using ConditionJudge = std::uint8_t(const std::uint8_t*, std::size_t, std::uint32_t, std::uint8_t*, std::size_t, std::size_t*);

inline Answer judge_under(ConditionJudge* function, std::string_view text, std::uint32_t condition) {
    const auto* const bytes = reinterpret_cast<const std::uint8_t*>(text.data());
    return answer(text.size() + 64, [&](std::uint8_t* buffer, std::size_t capacity, std::size_t* needed) {
        return function(bytes, text.size(), condition, buffer, capacity, needed);
    });
}

}    // namespace detail

// Returns the verdict on the text of a history.
inline Answer check(std::string_view text) { return detail::judge(fifobench_check, text); }

// Returns a smaller history that shows the violation, and its verdict; only the verdict if the history is
// linearizable.
inline Answer shrink(std::string_view text) { return detail::judge(fifobench_shrink, text); }

// Returns whether the verdict after the history is evidence: VALID or INVALID.
inline Answer verify(std::string_view text) { return detail::judge(fifobench_verify, text); }

// Linearizability or a weaker condition: a sum of values of fifobench_condition, such as fifobench::local +
// fifobench::weak_empty.
constexpr std::uint32_t linearizable = FIFOBENCH_LINEARIZABLE;
constexpr std::uint32_t local = FIFOBENCH_LOCAL;
constexpr std::uint32_t weak_empty = FIFOBENCH_WEAK_EMPTY;

// The same three under a condition.
inline Answer check(std::string_view text, std::uint32_t condition) { return detail::judge_under(fifobench_check_under, text, condition); }
inline Answer shrink(std::string_view text, std::uint32_t condition) { return detail::judge_under(fifobench_shrink_under, text, condition); }
inline Answer verify(std::string_view text, std::uint32_t condition) { return detail::judge_under(fifobench_verify_under, text, condition); }

// Return the picture of a history, and of a verdict if one follows, as an SVG document or in lines of characters.
inline Answer draw(std::string_view text) { return detail::judge(fifobench_draw, text); }
inline Answer draw_text(std::string_view text) { return detail::judge(fifobench_draw_text, text); }

// Returns the completion of a history whose calls may be pending. It is linearizable if and only if some completion
// is.
inline Answer complete(std::string_view text) { return detail::judge(fifobench_complete, text); }

// Returns the statistics of a history: a line for each number.
inline Answer stats(std::string_view text) { return detail::judge(fifobench_stats, text); }

// Returns the verdict on events by ticket.
inline Answer check(const fifobench_event* events, std::size_t count) {
    return detail::answer(24 * count + 64, [&](std::uint8_t* buffer, std::size_t capacity, std::size_t* needed) {
        return fifobench_check_events(events, count, buffer, capacity, needed);
    });
}

inline Answer check(const std::vector<fifobench_event>& events) { return check(events.data(), events.size()); }

// The history of a recorder (examples/recorders/cpp/recorder.hpp): its events by ticket, each with its thread, the
// values that the queue held first, and a text of both.
template <class History>
using if_recorded = decltype(std::declval<const History&>().events().begin()->second.ticket,
                             std::declval<const History&>().initial().empty(),
                             std::declval<const History&>().write(std::declval<std::ostream&>()));

// Returns the text of such a history.
template <class History, class = if_recorded<History>>
std::string text_of(const History& history) {
    std::ostringstream text;
    history.write(text);
    return text.str();
}

// Returns the verdict on such a history. If the queue was empty first, no text is made.
template <class History, class = if_recorded<History>>
Answer check(const History& history) {
    if (!history.initial().empty()) {
        return check(std::string_view(text_of(history)));
    }
    std::vector<fifobench_event> events;
    events.reserve(history.events().size());
    for (const auto& [thread, event] : history.events()) {
        const auto what = static_cast<std::uint32_t>(event.what) + FIFOBENCH_CALL_ENQ;
        events.push_back({event.ticket, event.value, static_cast<std::uint32_t>(thread), what});
    }
    return check(events);
}

// Returns the report that a test prints about a history with this verdict: for a `NO` the kind of violation, its
// operations and their picture; for a refused history the reason; nothing for a `YES`.
inline std::string report(const Answer& verdict, std::string_view text) {
    if (verdict.is_yes()) {
        return {};
    }
    if (verdict.status != Status::no) {
        return "the history isn't judged: " + verdict.text;
    }
    const Answer shrunk = shrink(text);
    const Answer picture = draw_text(shrunk.text);
    std::string said = "the history isn't linearizable: " + std::string(verdict.first_line()) + "\n\n" + shrunk.text;
    return picture.status == Status::yes ? said + '\n' + picture.text : said;
}

inline std::string report(std::string_view text) { return report(check(text), text); }

template <class History, class = if_recorded<History>>
std::string report(const History& history) {
    const Answer verdict = check(history);
    return verdict.is_yes() ? std::string() : report(verdict, text_of(history));
}

namespace detail {

// Fails the test that runs. A test of GoogleTest or Catch2 goes on, if one of their headers was included before this
// one. Otherwise the process ends as by a failed assert.
static inline void fail(const std::string& said, const char* file, int line) {
#if defined(ADD_FAILURE_AT)
    ADD_FAILURE_AT(file, line) << said;
#elif defined(FAIL_CHECK)
    FAIL_CHECK(file << ':' << line << ": " << said);
#else
    std::fprintf(stderr, "%s:%d: %s", file, line, said.c_str());
    std::abort();
#endif
}

}    // namespace detail

// Fails the test if the history, a text or that of a recorder, isn't linearizable, with the report as the message.
template <class History>
static inline void expect_linearizable(const History& history, const char* file = __builtin_FILE(),
                                       int line = __builtin_LINE()) {
    const std::string said = report(history);
    if (!said.empty()) {
        detail::fail(said, file, line);
    }
}

}    // namespace fifobench

#endif
