// Learns what holds in the states that a play reaches, and proves the part of it that the outputs need. It is compiled
// and called by equivalence/hold --find, with a graph that Python wrote, and prints what Python reads: a word and
// numbers on a line.
//
//     find GRAPH SEED CYCLES STEPS SECONDS GOES_ON [CHANGE..]
//
// CYCLES is for how many clock cycles of 512 lanes it plays. STEPS and SECONDS are the limits of each proof, in steps
// of the solver and in seconds; 0 is no limit. GOES_ON is 1 if guesses are to be proved even if an output is refuted.
// With CHANGE.., what was learned of the design without a change is tried with each of these. The status is 4 if
// outputs differ.

#include <cstdio>
#include <cstdlib>
#include <exception>
#include <limits>
#include <set>
#include <utility>

#include "../../playing/engine/playing.h"
#include "proving.h"

namespace find {

constexpr std::size_t MOST = 48;  // states of a kind
constexpr int EVERY = 4;  // clock cycles between samples, except of rare states
constexpr int ROUNDS = 3;
// Of the clock cycles at least one in this number is to end a bit time; otherwise it plays longer, to this factor.
constexpr int PACE = 4, LONGEST = 64;

// Plays for some clock cycles, or for more of them if a bit time has many: rare states need many bit times.
void play_long(play::Playing &playing, std::int64_t cycles) {
    for (int factor = 1; factor <= LONGEST && playing.difference().lane < 0; factor++) {
        playing.run({factor * cycles});
        if (playing.bit_times() * PACE >= cycles * play::LANES) return;
    }
}

Samples sampled(const Graph &graph, std::uint64_t seed, std::int64_t cycles, Progress &progress, bool &is_different) {
    progress.enter("playing");
    Samples made(graph, MOST);
    play::Playing playing(graph, {seed, 0});
    const Literal rare = graph.number("watched");
    playing.watch([&](const Program &program, const Lanes &which, std::int64_t cycle) {
        progress.show();
        made.take(program, cycle % EVERY == 0 ? which : which & program.value(rare));
    });
    play_long(playing, cycles);
    is_different = playing.difference().lane >= 0;
    return made;
}

// The graph with a gate for each guess that is 1 where it doesn't hold.
Graph watching(const Graph &graph, const Conditions &conditions, const std::vector<Guess> &guesses) {
    Graph made = graph;
    const auto both = [&](Literal a, Literal b) { return made.both(a, b); };
    Literals watched;
    for (const Guess &guess : guesses) {
        const Literal target = 2 * guess.target, condition = conditions.literal(guess.condition);
        Literal differs = target ^ guess.literal;
        if (guess.literal > 1)
            differs = both(both(target, guess.literal) ^ 1, both(target ^ 1, guess.literal ^ 1) ^ 1);
        watched.push_back(condition == 1 ? differs : both(condition, differs));
    }
    made.set("watched", watched);
    return made;
}

// Plays once more, and gives up the guesses that don't hold in a state it reaches, which becomes a sample.
std::vector<Guess> refuted(const Graph &graph, const Conditions &conditions, const std::vector<Guess> &guesses,
                           std::uint64_t seed, std::int64_t cycles, Progress &progress, Samples &samples) {
    const Graph watched = watching(graph, conditions, guesses);
    const Literals &literals = watched.list("watched");
    std::vector<Guess> gone;
    std::vector<std::size_t> left(guesses.size());
    for (std::size_t at = 0; at < left.size(); at++) left[at] = at;
    play::Playing playing(watched, {seed, 0});
    playing.watch([&](const Program &program, const Lanes &which, std::int64_t) {
        progress.counted().refuted = gone.size();
        progress.show();
        std::size_t kept = 0;
        for (const std::size_t at : left) {
            const Lanes found = program.value(literals[at]) & which;
            if (!play::any(found)) {
                left[kept++] = at;
                continue;
            }
            gone.push_back(guesses[at]);
            int lane = -1;
            play::each(found, [&](int one) { lane = lane < 0 ? one : lane; });
            samples.add(program, lane);
        }
        left.resize(kept);
    });
    play_long(playing, cycles);
    return gone;
}

// In how many states of a play the circuit has the phase, place and role of a given state; and in how many of these the
// design's registers are as in it, too.
class Reaching {
public:
    Reaching(const Graph &graph, const std::string &state) {
        std::vector<char> value(graph.gates.size(), '?');
        std::size_t at = 0;
        for (const Register &held : play::registers_of(graph, "registers")) value[held.signal] = state[at++];
        int phase = 0;
        const Literals &phases = graph.list("phase");
        for (std::size_t place = 0; place < phases.size(); place++)
            phase |= (value[phases[place] >> 1] == '1') << place;
        for (const char *name : {"phase", "sender", phase == STUFFED_PART ? "count" : "place"})
            for (const Literal literal : graph.list(name)) take(circuit, literal, value);
        for (const int signal : graph.list("design")) take(design, 2 * signal, value);
    }

    void count(const Program &program, const Lanes &which) {
        Lanes left = which;
        for (const Literal literal : circuit) left &= program.value(literal);
        there += play::count(left);
        for (const Literal literal : design) left &= program.value(literal);
        same += play::count(left);
    }
    void print(int state) const {
        std::printf("chain %d %lld %lld\n", state, static_cast<long long>(there), static_cast<long long>(same));
    }

private:
    static constexpr int STUFFED_PART = 2;

    static void take(Literals &to, Literal literal, const std::vector<char> &value) {
        const char held = value[literal >> 1];
        if (held != '?') to.push_back(literal ^ (held == '0'));
    }

    Literals circuit, design;  // that are 1 in the state
    std::int64_t there = 0, same = 0;
};

void print_chain(const Graph &graph, const Proving &proving, std::uint64_t seed, std::int64_t cycles,
                 Progress &progress) {
    progress.enter("counting");
    const std::vector<int> chain = proving.chain();
    std::vector<Reaching> reaching;
    for (const int at : chain) reaching.emplace_back(graph, proving.refuting()[at].registers);
    play::Playing playing(graph, {seed, 0});
    playing.watch([&](const Program &program, const Lanes &which, std::int64_t) {
        progress.show();
        for (Reaching &one : reaching) one.count(program, which);
    });
    play_long(playing, cycles);
    for (std::size_t at = 0; at < chain.size(); at++) reaching[at].print(chain[at]);
}

void print_guess(const char *word, const Guess &guess) {
    std::printf("%s %d %d %d\n", word, guess.condition, guess.target, guess.literal);
}

// The guesses that hold after a reset.
std::vector<Guess> after_reset(const Graph &graph, const Conditions &conditions, const std::vector<Guess> &guesses,
                               int change, const Effort &effort, Progress &progress) {
    progress.enter("resetting");
    Proving proving(graph, conditions, guesses, {true, false, change}, progress);
    proving.run(true, true, effort);
    std::vector<Guess> kept;
    for (std::size_t at = 0; at < proving.all().size(); at++)
        if (proving.is_alive(at)) kept.push_back(proving.all()[at]);
    return kept;
}

// For each of some changes of the design, which the play did not have: where the proof fails. The line has the number
// of the change, that of the output, the state by which what excludes it was given up, and the first guess that was.
void prove_changes(const Graph &graph, const Conditions &conditions, const std::vector<Guess> &guesses,
                   const std::vector<int> &changes, const Effort &effort, Progress &progress) {
    for (const int change : changes) {
        const std::vector<Guess> kept = after_reset(graph, conditions, guesses, change, effort, progress);
        progress.enter("proving");
        Proving step(graph, conditions, kept, {false, false, change}, progress);
        const bool is_done = step.run(false, false, effort);
        const std::vector<int> chain = step.chain();
        if (chain.empty()) {
            std::printf("change %d %s\n", change, is_done ? "proved" : "undecided");
        } else {
            const Refuting &first = step.refuting()[chain.back()], &last = step.refuting()[chain.front()];
            const int at = first.gone.front() - static_cast<int>(graph.list("same").size());
            const Guess none{-1, 0, 0}, &guess = at < 0 ? none : step.all()[at];
            std::printf("change %d %d %s %d %d %d\n", change, last.gone.front(), first.registers.c_str(),
                        guess.condition, guess.target, guess.literal);
        }
        std::fflush(stdout);
    }
}

// The first of the guesses about each register under each condition.
std::vector<Guess> first_of_each(const std::vector<Guess> &guesses) {
    std::set<std::pair<int, int>> known;
    std::vector<Guess> made;
    for (const Guess &guess : guesses)
        if (known.insert({guess.condition, guess.target}).second) made.push_back(guess);
    return made;
}

// What holds in the states of a play, and in those of some more.
std::vector<Guess> guessed(Graph &graph, Conditions &conditions, Samples &samples, std::uint64_t seed,
                           std::int64_t cycles, Progress &progress) {
    std::vector<Guess> guesses, dead, known;
    for (int round = 0; round < ROUNDS; round++) {
        progress.enter("guessing", round + 1);
        samples.sort();
        Guessing guessing(graph, conditions, samples);
        known = guessing.all(dead, known, progress);
        guesses = guessing.ranges(graph);
        guesses.insert(guesses.end(), known.begin(), known.end());
        progress.enter("checking", round + 1);
        const std::vector<Guess> gone =
            refuted(graph, conditions, guesses, seed + 1 + round, cycles / 4, progress, samples);
        dead.insert(dead.end(), gone.begin(), gone.end());
        if (gone.empty()) break;
    }
    std::printf("guesses %zu\n", guesses.size());
    const std::vector<int> &limits = graph.list("limits");
    for (std::size_t at = 0; at + 2 < limits.size(); at += 3)
        std::printf("limit %d %d %d\n", limits[at], limits[at + 1], limits[at + 2]);
    return guesses;
}

// Of what is proved, what the outputs need; those that only take part in the proof are printed, too.
void print_needed(const Graph &graph, const Conditions &conditions, const std::vector<Guess> &proved,
                  const Effort &effort, Progress &progress) {
    progress.enter("reducing");
    // a mapping is easier to read if a register equals one thing under a condition
    for (const std::vector<Guess> &some : {first_of_each(proved), proved}) {
        Proving again(graph, conditions, some, {false, true, 0}, progress);
        if (!again.reduce(effort)) continue;
        const std::vector<char> standing = again.standing();
        for (std::size_t at = 0; at < some.size(); at++) print_guess(standing[at] ? "needed" : "left", some[at]);
        return;
    }
    for (const Guess &guess : proved) print_guess("needed", guess);
}

void print_outputs(const Proving &step, std::size_t outputs, bool is_done) {
    const Proving::Counts &counts = step.counts();
    std::printf("asked %lld %lld %lld %lld\n", static_cast<long long>(counts.questions),
                static_cast<long long>(counts.answered), static_cast<long long>(counts.gone),
                static_cast<long long>(step.steps()));
    std::printf("is_done %d\n", is_done);
    std::printf("outputs");
    for (std::size_t at = 0; at < outputs; at++) std::printf(" %d", step.output(at));
    std::printf("\n");
}

Effort effort_of(std::int64_t steps, double seconds) {
    return {steps > 0 ? steps : std::numeric_limits<std::int64_t>::max(),
            seconds > 0 ? seconds : std::numeric_limits<double>::infinity()};
}

// False if outputs differ.
bool find(Graph graph, std::uint64_t seed, std::int64_t cycles, const Effort &effort, bool goes_on,
          const std::vector<int> &changes) {
    Progress progress;
    bool is_different = false;
    Samples samples = sampled(graph, seed, cycles, progress, is_different);
    if (is_different) return false;
    std::printf("samples %zu %zu\n", samples.size(), samples.number_of_kinds());
    Conditions conditions(graph);
    const std::vector<Guess> guesses = guessed(graph, conditions, samples, seed, cycles, progress);
    if (!changes.empty()) {
        prove_changes(graph, conditions, guesses, changes, effort, progress);
        return true;
    }
    const std::vector<Guess> kept = after_reset(graph, conditions, guesses, 0, effort, progress);
    progress.enter("proving");
    Proving step(graph, conditions, kept, {}, progress);
    const bool is_done = step.run(false, goes_on, effort);
    const std::size_t outputs = graph.list("same").size();
    print_outputs(step, outputs, is_done);
    bool is_equal = true;
    for (std::size_t at = 0; at < outputs; at++) is_equal = is_equal && step.output(at) == Proving::PROVED;
    const std::vector<Guess> &all = step.all();
    const std::vector<char> stands = is_equal ? step.standing() : step.holding();
    std::vector<Guess> proved;
    for (std::size_t at = 0; at < all.size(); at++)
        if (stands[at]) proved.push_back(all[at]);
    if (is_equal)
        print_needed(graph, conditions, proved, effort, progress);
    else
        for (const Guess &guess : proved) print_guess("left", guess);
    for (const Refuting &state : step.refuting()) {
        std::printf("state %s %s", state.registers.c_str(), state.inputs.c_str());
        for (const int at : state.gone) std::printf(" %d", at);
        std::printf("\nreasons");
        for (const int signal : state.reasons) std::printf(" %d", signal);
        std::printf("\n");
    }
    if (!is_equal) print_chain(graph, step, seed, cycles / 4, progress);
    std::printf("kept %zu\n", kept.size());
    for (const Guess &guess : all) print_guess("guess", guess);
    return true;
}

}  // namespace find

int main(int count, char **words) {
    if (count < 7) {
        std::fprintf(stderr, "usage: find GRAPH SEED CYCLES STEPS SECONDS GOES_ON [CHANGE..]\n");
        return 2;
    }
    try {
        const play::Graph graph(words[1]);
        const std::uint64_t seed = std::strtoull(words[2], nullptr, 10);
        std::vector<int> changes;
        for (int at = 7; at < count; at++) changes.push_back(std::atoi(words[at]));
        const find::Effort effort = find::effort_of(std::atoll(words[4]), std::atof(words[5]));
        const bool goes_on = words[6][0] == '1';
        if (!find::find(graph, seed, std::atoll(words[3]), effort, goes_on, changes)) return 4;
    } catch (const std::exception &fault) {
        std::fprintf(stderr, "%s\n", fault.what());
        return 3;
    }
    return 0;
}
