// How far a search is, for whoever waits for it: lines that Python reads, at most one a second.
#pragma once

#include <cstddef>
#include <cstdint>
#include <cstdio>

#include "../../playing/engine/playing.h"

namespace find {

class Progress {
public:
    // How far some work is: the round of it, questions that the solver has answered, guesses that were refuted, and how
    // many groups of guesses are proved of those that are needed.
    struct Counts {
        int round = 0;
        std::int64_t questions = 0;
        std::size_t refuted = 0, proved = 0, needed = 0;
    };

    // `what` is a word for the work that begins, as finding/progress.py knows it.
    void enter(const char *what, int round = 0) {
        work = what;
        counts = {};
        counts.round = round;
    }
    Counts &counted() { return counts; }
    void show() {
        const double now = play::now_in_seconds();
        if (now < last + SECONDS) return;
        last = now;
        std::printf("progress %s %d %lld %zu %zu %zu\n", work, counts.round, static_cast<long long>(counts.questions),
                    counts.refuted, counts.proved, counts.needed);
        std::fflush(stdout);
    }

private:
    static constexpr double SECONDS = 1;

    const char *work = "playing";
    double last = play::now_in_seconds();
    Counts counts;
};

}  // namespace find
