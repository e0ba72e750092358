// Plays a design and the circuit on one bus, and shortens the first run in which they differ. It is compiled and called
// by equivalence/hold --play, with a graph that Python wrote, and prints what Python reads: a word and numbers on a
// line.
//
//     play GRAPH SEED CYCLES SECONDS CHANGE SHORTENS
//
// CYCLES is for how many clock cycles all runs are played, SECONDS for how long at most; 0 is no limit. CHANGE chooses
// a change of the design, 0 for none, -1 for any. SHORTENS is for how many clock cycles runs are played again to
// shorten the one that differs; 0 stops after the first difference.

#include <cstdio>
#include <cstdlib>
#include <exception>
#include <string>

#include "shortening.h"

namespace play {

void print_row(const Run &run, const Row &row) {
    const int action = static_cast<int>(row.action);
    std::printf("row %d %d %d %d %d", row.reset, row.integrating, row.enable, action, row.request);
    if (const int at = run.is_queued ? row.offer : row.frame; at >= 0) {
        const Frame &frame = run.frames[at];
        const unsigned long long data = frame.data;
        std::printf(" %d %d %u %u %llu", frame.extended, frame.remote, frame.identifier, frame.dlc, data);
    }
    std::printf("\n");
}

// Each row of a run, with the values of all signals before its clock edge; and a quiet bit time after the last one.
void print_run(const Graph &graph, int change, Run run) {
    run.rows.push_back(run.rows.back());
    run.rows.back().action = Action::RECESSIVE;
    run.rows.back().offer = run.rows.back().request = -1;
    Literals every;
    for (std::size_t signal = 0; signal < graph.gates.size(); signal++) every.push_back(2 * static_cast<int>(signal));
    Replay(graph, change, every).trace(run, [&](const Row &row, const Program &program) {
        print_row(run, row);
        std::string text;
        for (const Literal literal : every) text += has(program.value(literal), 0) ? '1' : '0';
        std::printf("values %s\n", text.c_str());
    });
}

void print_counts(const Playing &playing, double seconds) {
    std::printf("played %lld %lld %lld %.3f\n", static_cast<long long>(playing.bit_times()),
                static_cast<long long>(playing.cycles()), static_cast<long long>(playing.dropped()), seconds);
    std::printf("counts");
    for (const std::int64_t number : playing.counts()) std::printf(" %lld", static_cast<long long>(number));
    std::printf("\n");
}

void shorten(const Graph &graph, const Choice &choice, const Found &found, std::int64_t cycles) {
    const double begun = now_in_seconds();
    const Run recorded = Playing(graph, choice).recorded(found);
    Shortening shortening(graph, choice.change, recorded);
    if (!shortening.begin()) throw std::runtime_error("the run that was recorded has no difference");
    const std::size_t before = shortening.run().rows.size();
    const bool is_done = shortening.shorten(cycles);
    const Run &run = shortening.run();
    std::printf("shortened %zu %zu %.3f %d %d %d\n", before, run.rows.size(), now_in_seconds() - begun, run.is_queued,
                shortening.needs_start(), is_done);
    print_run(graph, choice.change, run);
}

void play(const std::string &path, const Choice &choice, const Limit &limit, std::int64_t shortens) {
    const Graph graph(path);
    Playing playing(graph, choice);
    const double begun = now_in_seconds();
    playing.run(limit);
    print_counts(playing, now_in_seconds() - begun);
    const Found &found = playing.difference();
    if (found.lane < 0) return;
    std::printf("found %lld %d\n", static_cast<long long>(found.cycle), found.lane);
    if (shortens > 0) shorten(graph, choice, found, shortens);
}

}  // namespace play

int main(int count, char **words) {
    if (count != 7) {
        std::fprintf(stderr, "usage: play GRAPH SEED CYCLES SECONDS CHANGE SHORTENS\n");
        return 2;
    }
    try {
        const play::Choice choice{std::strtoull(words[2], nullptr, 10), std::atoi(words[5])};
        play::Limit limit;
        if (const std::int64_t cycles = std::atoll(words[3])) limit.cycles = cycles;
        if (const double seconds = std::atof(words[4]); seconds > 0) limit.seconds = seconds;
        play::play(words[1], choice, limit, std::atoll(words[6]));
    } catch (const std::exception &fault) {
        std::fprintf(stderr, "%s\n", fault.what());
        return 3;
    }
    return 0;
}
