// Which guesses are proved: the greatest part of them that is inductive, as far as the outputs need it.
#pragma once

#include <array>
#include <cadical.hpp>
#include <chrono>
#include <cstdint>
#include <cstdio>
#include <map>
#include <memory>
#include <stdexcept>
#include <string>
#include <unordered_map>
#include <vector>

#include "guessing.h"

namespace find {

// Gates with structural hashing.
class Gates {
public:
    Literal fresh() {
        gates.push_back({-1, -1});
        return 2 * (static_cast<int>(gates.size()) - 1);
    }
    Literal both(Literal a, Literal b) {
        if (a > b) std::swap(a, b);
        if (a == 0 || a == (b ^ 1)) return 0;
        if (a == 1 || a == b) return b;
        const std::uint64_t sides = static_cast<std::uint64_t>(a) << 32 | static_cast<std::uint32_t>(b);
        const auto found = known.find(sides);
        if (found != known.end()) return found->second;
        const Literal made = fresh();
        gates[made >> 1] = {a, b};
        known[sides] = made;
        return made;
    }
    Literal differ(Literal a, Literal b) { return both(both(a, b) ^ 1, both(a ^ 1, b ^ 1) ^ 1); }

    std::vector<Gate> gates{{-1, -1}};

private:
    std::unordered_map<std::uint64_t, Literal> known;
};

// Two bit times of the graph as clauses of an incremental solver.
class Unrolled {
public:
    // With `resets` the first bit time is a reset; the second one never is.
    Unrolled(const Graph &graph, bool resets) : graph(graph), resets(resets), next(graph.gates.size(), -1) {
        for (const Register &held : play::registers_of(graph, "registers")) next[held.signal] = held.next;
        for (auto &frame : frames) frame.assign(graph.gates.size(), -1);
        solver.set("quiet", 1);
        clause({-1});  // signal 0 is false
    }

    Literal of(int frame, Literal literal) {
        std::vector<int> waiting{literal >> 1};
        std::vector<int> &made = frames[frame];
        while (!waiting.empty()) {
            const int signal = waiting.back();
            if (made[signal] >= 0) {
                waiting.pop_back();
                continue;
            }
            const Gate gate = graph.gates[signal];
            if (gate.is_gate()) {
                const int a = made[gate.a >> 1], b = made[gate.b >> 1];
                if (a >= 0 && b >= 0) made[signal] = gates.both(a ^ (gate.a & 1), b ^ (gate.b & 1));
                if (a < 0) waiting.push_back(gate.a >> 1);
                if (b < 0) waiting.push_back(gate.b >> 1);
            } else if (signal == 0 || signal == graph.number("reset")) {
                made[signal] = signal != 0 && frame == 0 && resets;
            } else {
                made[signal] = next[signal] >= 0 && frame > 0 ? of(frame - 1, next[signal]) : gates.fresh();
                if (next[signal] < 0 && frame == 0) inputs.push_back(made[signal] >> 1);
            }
        }
        return made[literal >> 1] ^ (literal & 1);
    }
    Literal violation(int frame, Literal condition, const Guess &guess) {
        return gates.both(of(frame, condition), gates.differ(of(frame, 2 * guess.target), of(frame, guess.literal)));
    }

    // Whether something read a signal in the first bit time.
    bool is_made(int signal) const { return frames[0][signal] >= 0; }

    void require(Literal literal) { clause({number(literal)}); }
    // The solver's number of a literal, whose gates it knows from now on.
    int number(Literal literal) {
        std::vector<int> waiting{literal >> 1};
        if (numbers.size() < gates.gates.size()) numbers.resize(gates.gates.size(), 0);
        numbers[0] = 1;
        while (!waiting.empty()) {
            const int signal = waiting.back();
            const Gate gate = gates.gates[signal];
            if (numbers[signal]) {
                waiting.pop_back();
            } else if (gate.is_gate() && !(numbers[gate.a >> 1] && numbers[gate.b >> 1])) {
                waiting.push_back(gate.a >> 1);
                waiting.push_back(gate.b >> 1);
            } else {
                numbers[signal] = variable();
                if (!gate.is_gate()) continue;
                const int z = numbers[signal], a = signed_number(gate.a), b = signed_number(gate.b);
                clause({-z, a});
                clause({-z, b});
                clause({z, -a, -b});
            }
        }
        return signed_number(literal);
    }
    int variable() { return ++variables; }
    void clause(const std::vector<int> &numbers_of) {
        for (const int one : numbers_of) solver.add(one);
        solver.add(0);
    }
    // All signals in the solution, each in 64 ways: in the first one as it is, in the others some inputs of the first bit
    // time differ.
    std::vector<Word> variations(play::Dice &dice) {
        std::vector<Word> made(gates.gates.size(), 0);
        for (std::size_t signal = 1; signal < made.size(); signal++)
            if (!gates.gates[signal].is_gate()) {
                const Literal literal = 2 * static_cast<Literal>(signal);
                made[signal] = -Word(is_known(literal) ? value(literal) : dice.one_in(2));
            }
        for (const int signal : inputs) made[signal] ^= dice.next() & dice.next() & ~Word{1};
        for (std::size_t signal = 1; signal < made.size(); signal++) evaluate(made, signal);
        return made;
    }
    // Adds the gates that are new.
    void extend(std::vector<Word> &words) const {
        for (std::size_t signal = words.size(); signal < gates.gates.size(); signal++) {
            words.push_back(0);
            evaluate(words, signal);
        }
    }
    static Word word_of(const std::vector<Word> &words, Literal literal) {
        return words[literal >> 1] ^ -Word(literal & 1);
    }
    bool value(Literal literal) {
        const int one = signed_number(literal);
        return (solver.val(std::abs(one)) > 0) == (one > 0);
    }
    bool is_known(Literal literal) const {
        return static_cast<std::size_t>(literal >> 1) < numbers.size() && numbers[literal >> 1];
    }

    // The signals of the first bit time that make a literal of the second one true: no other values matter.
    std::vector<char> reasons(Literal literal) {
        std::vector<char> made(gates.gates.size(), 0);
        std::vector<int> waiting{literal >> 1};
        while (!waiting.empty()) {
            const int signal = waiting.back();
            waiting.pop_back();
            if (made[signal]) continue;
            made[signal] = 1;
            const Gate gate = gates.gates[signal];
            if (!gate.is_gate()) continue;
            const bool is_a_false = !value(gate.a), is_b_false = !value(gate.b);
            if (is_a_false || !is_b_false) waiting.push_back(gate.a >> 1);
            if (!is_a_false) waiting.push_back(gate.b >> 1);
        }
        return made;
    }

    CaDiCaL::Solver solver;
    Gates gates;

private:
    void evaluate(std::vector<Word> &words, std::size_t signal) const {
        if (const Gate gate = gates.gates[signal]; gate.is_gate())
            words[signal] = word_of(words, gate.a) & word_of(words, gate.b);
    }
    int signed_number(Literal literal) const { return literal & 1 ? -numbers[literal >> 1] : numbers[literal >> 1]; }

    const Graph &graph;
    bool resets;
    std::vector<int> next, frames[2], numbers, inputs;
    int variables = 1;
};

// A state before a bit time after which some guesses don't hold, as the values of registers and of inputs: '?' is any.
// `earlier` is the number of a state by which a guess was given up that this one doesn't meet; -1 if it meets all that
// there were. `reasons` are the registers of the design whose values make the first of what is given up wrong.
struct Refuting {
    std::string registers, inputs;
    std::vector<int> gone, reasons;
    int earlier;
};

// How far a proof goes: in steps of the solver, of which the same questions take the same number on any machine; and in
// seconds.
struct Effort {
    std::int64_t steps;
    double seconds;
};

struct LimitReached : std::runtime_error {
    LimitReached() : std::runtime_error("a limit is reached") {}
};

// Ends a question when a limit is reached, and shows how far the search is. The solver calls it once a step.
class Waiting : public CaDiCaL::Terminator {
public:
    explicit Waiting(Progress &progress) : progress(progress) {}

    void begin(const Effort &given) {
        steps = 0;
        most = given.steps;
        end = play::now_in_seconds() + given.seconds;
    }
    bool terminate() override {
        progress.show();
        return ++steps > most || play::now_in_seconds() > end;
    }
    Progress &shown() { return progress; }
    std::int64_t taken() const { return steps; }

private:
    Progress &progress;
    std::int64_t steps = 0, most = 0;
    double end = 0;
};

class Proving {
public:
    struct Counts {
        std::int64_t questions = 0, answered = 0, gone = 0;
    };

    // What is asked: after a reset, or after any state that the guesses allow; with finer groups of guesses; of the
    // design with a change.
    struct Query {
        bool resets = false, fine = false;
        int change = 0;
    };

    // The guesses after `outputs` places are those about registers; the ones before are the compared outputs.
    Proving(const Graph &graph, const Conditions &conditions, const std::vector<Guess> &given_guesses,
            const Query &query, Progress &progress)
        : graph(graph),
          conditions(conditions),
          resets(query.resets),
          fine(query.fine),
          waiting(progress),
          unrolled(graph, resets),
          own(graph.list("own").begin(), graph.list("own").end()) {
        unrolled.solver.connect_terminator(&waiting);
        const Literals &pairs = graph.list("partners");
        for (std::size_t at = 0; at + 1 < pairs.size(); at += 2)
            kinds[pairs[at] >> 1] = pairs[at + 1];
        const Literals &same = graph.list("same"), &given = graph.list("given");
        for (const Literal literal : given) {
            required.push_back(unrolled.of(0, literal));
            required.push_back(unrolled.of(1, literal));
        }
        if (!resets) required.push_back(unrolled.of(0, graph.number("legal")));
        const std::vector<int> &changes = graph.list("changes");
        for (std::size_t at = 0; at < changes.size(); at++)
            for (const int frame : {0, 1})
                required.push_back(unrolled.of(frame, 2 * changes[at]) ^ !(query.change >> at & 1));
        for (const Literal literal : required) unrolled.require(literal);
        outputs = same.size();
        const std::vector<int> &held = graph.list("held");
        for (std::size_t at = 0; at < same.size(); at++) {
            const Literal differs = same[at] ^ 1;
            const int which = static_cast<int>(members.size());
            if (held[at])
                put(which, resets ? 0 : unrolled.of(0, differs), unrolled.of(1, differs));
            else  // it depends on the inputs of its bit time, and is asked about in the first one
                put(which, 0, resets ? 0 : unrolled.of(0, differs));
        }
        const std::vector<int> &asked = graph.list("asked_conditions");
        always_asked.insert(asked.begin(), asked.end());
        const std::vector<int> &words = graph.list("words");
        for (std::size_t at = 0; at + 1 < words.size(); at += 2) word_of[words[at]] = words[at + 1];
        for (const Guess &guess : given_guesses) add(guess);
        if (!resets)
            for (std::size_t at = 0; at < members.size(); at++) arm(static_cast<int>(at));
    }

    // Proves the outputs once more, and what their proofs depend on, assuming no more than it takes: as long as a state
    // refutes a group, the likeliest guesses that this state does not meet are assumed, too. False if that fails, or if
    // a limit is reached.
    bool reduce(const Effort &effort) {
        is_reducing = true;
        return within(effort, [&] {
            for (std::size_t at = 0; at < members.size(); at++)
                if (is_asked(at)) need(static_cast<int>(at));
            for (std::size_t at = 0; at < queue.size(); at++) {
                const int which = queue[at];
                is_queued[which] = 0;
                while (!prove(which)) {
                    const int best = likeliest_violated();
                    if (best < 0) return false;
                    need(best);
                }
            }
            return true;
        });
    }

    // Proves the outputs, then what their proofs depend on, and so on; or all guesses. Without `goes_on` it ends when
    // an output is refuted. False if a limit is reached.
    bool run(bool everything, bool goes_on, const Effort &effort) {
        return within(effort, [&] {
            for (std::size_t at = 0; at < members.size(); at++)
                if (everything || is_asked(at)) need(static_cast<int>(at));
            for (std::size_t at = 0; at < queue.size() && (goes_on || !is_lost); at++) {
                const int which = queue[at];
                is_queued[which] = 0;
                while (!prove(which)) {}
            }
            is_complete = goes_on || !is_lost;
            return true;
        });
    }

    // All guesses: those given, and weaker ones of those that were given up.
    const std::vector<Guess> &all() const { return guesses; }
    bool is_alive(std::size_t at) const { return alive[outputs + at]; }
    enum Result { REFUTED, PROVED, UNDECIDED };
    Result output(std::size_t at) const { return !alive[at] ? REFUTED : is_complete ? PROVED : UNDECIDED; }
    const Counts &counts() const { return tally; }
    std::int64_t steps() const { return waiting.taken(); }
    const std::vector<Refuting> &refuting() const { return states; }

    // From the first state that refutes an output, the states by which what excludes it was given up, one by one. The
    // last one meets all guesses that there were.
    std::vector<int> chain() const {
        std::vector<int> made;
        int at = 0;
        while (at < static_cast<int>(states.size()) && states[at].gone.front() >= static_cast<int>(outputs)) at++;
        for (; at >= 0 && at < static_cast<int>(states.size()); at = states[at].earlier) made.push_back(at);
        return made;
    }

    // What the proofs of the outputs depend on.
    std::vector<char> standing() const {
        std::vector<int> roots;
        for (std::size_t at = 0; at < members.size(); at++)
            if (is_asked(at)) roots.push_back(static_cast<int>(at));
        return alive_in(read_by(roots));
    }

    // What is inductive, whether the outputs are proved or not: equalities with what has a name, and what they need.
    std::vector<char> holding() const {
        std::vector<char> holds(members.size());
        for (std::size_t at = 0; at < members.size(); at++) holds[at] = needed[at] && proved[at];
        const auto depends_on_all = [&](std::size_t at) {
            return std::all_of(core[at].begin(), core[at].end(), [&](int other) { return holds[other] != 0; });
        };
        for (bool is_done = false; !is_done;) {
            is_done = true;
            for (std::size_t at = 0; at < members.size(); at++)
                if (holds[at] && !depends_on_all(at)) holds[at] = is_done = false;
        }
        std::vector<int> roots;
        for (std::size_t at = 0; at < members.size(); at++)
            if (holds[at] && (at < outputs || is_of_names(at))) roots.push_back(static_cast<int>(at));
        return alive_in(read_by(roots));
    }

private:
    static constexpr int DEAD = -1, SATISFIABLE = 10;

    // Does some work, whose result is false if a limit is reached.
    template <typename Work>
    bool within(const Effort &effort, const Work &work) {
        waiting.begin(effort);
        try {
            return work();
        } catch (const LimitReached &) {
            return false;
        }
    }
    // Whether the assumed clauses have a solution.
    bool is_satisfiable() {
        show_counts();
        const int status = waiting.terminate() ? 0 : unrolled.solver.solve();
        if (!status) throw LimitReached();
        return status == SATISFIABLE;
    }
    void show_counts() {
        Progress::Counts &shown = waiting.shown().counted();
        shown.questions = tally.questions;
        shown.refuted = static_cast<std::size_t>(tally.gone);
        shown.proved = shown.needed = 0;
        for (std::size_t at = 0; at < members.size(); at++) {
            shown.needed += needed[at] != 0;
            shown.proved += needed[at] && proved[at];
        }
    }

    // Outputs, and what the user of the learner has guessed.
    bool is_asked(std::size_t which) const {
        const std::size_t first = static_cast<std::size_t>(members[which].front());
        return which < outputs || always_asked.count(guesses[first - outputs].condition);
    }

    // These groups, what their proofs depend on, and so on.
    std::vector<char> read_by(std::vector<int> waiting) const {
        std::vector<char> made(members.size(), 0);
        while (!waiting.empty()) {
            const int one = waiting.back();
            waiting.pop_back();
            if (made[one]) continue;
            made[one] = 1;
            waiting.insert(waiting.end(), core[one].begin(), core[one].end());
        }
        return made;
    }
    // Which guesses of some groups are not given up.
    std::vector<char> alive_in(const std::vector<char> &groups_in) const {
        std::vector<char> made;
        for (std::size_t at = outputs; at < alive.size(); at++) made.push_back(groups_in[group[at]] && alive[at]);
        return made;
    }
    // Whether a guess of a group compares with a constant, or with a word that has a name.
    bool is_of_names(std::size_t which) const {
        return std::any_of(members[which].begin(), members[which].end(), [&](int at) {
            return alive[at] && kind(guesses[static_cast<std::size_t>(at) - outputs]) <= KNOWN;
        });
    }

    // Adds what is never to hold, in the first bit time and after it, to a group.
    void put(int which, Literal first, Literal second) {
        if (static_cast<std::size_t>(which) == members.size()) {
            members.push_back({});
            core.push_back({});
            for (std::vector<char> *flags : {&proved, &needed, &is_queued, &likely, &needs_more}) flags->push_back(0);
            armed.push_back(0);
        }
        members[which].push_back(static_cast<int>(alive.size()));
        before.push_back(first);
        after.push_back(second);
        group.push_back(which);
        alive.push_back(1);
        given_up_by.push_back(-1);
        if (first > 1) unrolled.number(first);
        if (second > 1) unrolled.number(second);
    }

    // Guesses of one condition about one word are a group: they are assumed, and asked, together; `fine` separates kinds of
    // literals apart. Returns the group.
    int add(const Guess &guess) {
        const std::array<int, 3> of{conditions.family(guess.condition), word_of[guess.target], fine ? kind(guess) : 0};
        const int which = groups.insert({of, static_cast<int>(members.size())}).first->second;
        const Literal condition = conditions.literal(guess.condition);
        guesses.push_back(guess);
        put(which, resets ? 0 : unrolled.violation(0, condition, guess), unrolled.violation(1, condition, guess));
        likely[which] |= is_likely(guess);
        if (costs.size() < members.size()) costs.resize(members.size(), 0);
        costs[which] = std::max(costs[which], cost(guess));
        known[{guess.condition, guess.target, guess.literal}] = static_cast<int>(alive.size()) - 1;
        return which;
    }

    int kind(const Guess &guess) const {
        const auto found = kinds.find(guess.literal >> 1);
        return guess.literal < 2 ? -1 : found == kinds.end() ? DESIGN : found->second;
    }
    // The less, the likelier a guess is needed.
    int cost(const Guess &guess) const {
        const int all = static_cast<int>(conditions.size());
        const int at = conditions.only(guess.condition).empty() ? guess.condition : all / 4;
        return at + (kind(guess) > KNOWN ? 2 * all : 0);
    }

    bool is_likely(const Guess &guess) const {
        return guess.condition == 0 || (kind(guess) <= KNOWN && !own.count(guess.target));
    }

    void arm(int which) {
        if (armed[which]) unrolled.clause({-armed[which]});
        armed[which] = unrolled.variable();
        for (const int at : members[which])
            if (alive[at] && before[at]) unrolled.clause({-armed[which], -unrolled.number(before[at])});
    }
    void need(int which) {
        needed[which] = 1;
        if (proved[which] || is_queued[which]) return;
        is_queued[which] = 1;
        queue.push_back(which);
    }

    // Asks for a state after which a guess of the group does not hold. True once there is none.
    bool prove(int which) {
        std::vector<int> clause;
        for (const int at : members[which])
            if (alive[at] && after[at]) clause.push_back(unrolled.number(after[at]));
        core[which].clear();
        proved[which] = clause.empty();
        if (clause.empty()) return true;
        const int asked = unrolled.variable();
        clause.insert(clause.begin(), -asked);
        unrolled.clause(clause);
        // first under what is likely to be needed, unless that was too little before; then under all
        bool is_refuted = true;
        for (const bool all : {false, true}) {
            if (!is_refuted || (all && is_reducing)) break;
            if (!all && !is_reducing && needs_more[which]) continue;
            needs_more[which] = all;
            tally.questions++;
            for (std::size_t at = 0; at < armed.size(); at++)
                if (armed[at] && (needed[at] || (!is_reducing && (all || likely[at]))))
                    unrolled.solver.assume(armed[at]);
            unrolled.solver.assume(asked);
            is_refuted = is_satisfiable();
        }
        proved[which] = !is_refuted;
        if (is_refuted && is_reducing)
            keep_values();
        else if (is_refuted)
            give_up(which);
        else
            for (std::size_t at = 0; at < members.size(); at++)
                if (armed[at] && unrolled.solver.failed(armed[at])) core[which].push_back(static_cast<int>(at));
        unrolled.clause({-asked});
        for (const int at : core[which]) need(at);
        return !is_refuted;
    }

    // Which guesses the state found does not meet.
    void keep_values() {
        violated.assign(alive.size(), 0);
        for (std::size_t at = 0; at < alive.size(); at++)
            violated[at] = before[at] > 1 ? unrolled.value(before[at]) : before[at];
    }
    bool is_violated(std::size_t which) const {
        return std::any_of(members[which].begin(), members[which].end(), [&](int at) { return violated[at] != 0; });
    }

    // Gives up the guesses of the group that don't hold after the state found, and those of all needed groups.
    void give_up(int which) {
        tally.answered++;
        std::vector<int> gone;
        std::vector<char> is_hit(members.size(), 0);
        std::vector<Word> words = unrolled.variations(dice);
        Word lanes = ~Word{0};
        for (const Literal literal : required) lanes &= Unrolled::word_of(words, literal);
        for (std::size_t at = 0; at < alive.size(); at++) {
            const int of = group[at];
            const bool is_meant = of == which || (at >= outputs && needed[of]);
            const Word asked = at < outputs ? Word{1} : lanes;
            if (!alive[at] || !is_meant || !(Unrolled::word_of(words, after[at]) & asked)) continue;
            gone.push_back(static_cast<int>(at));
            is_hit[of] = 1;
        }
        const std::vector<char> reasons = reasons_for(gone);
        states.push_back({state(), inputs(), gone, of_design(reasons), earlier(reasons)});
        for (const int at : gone) {
            alive[at] = 0;
            given_up_by[at] = static_cast<int>(states.size()) - 1;
            is_lost |= static_cast<std::size_t>(at) < outputs;
        }
        tally.gone += static_cast<std::int64_t>(gone.size());
        proved[which] = 0;
        std::vector<Guess> weaker;
        for (const int at : gone)
            if (static_cast<std::size_t>(at) >= outputs)
                weaken(guesses[at - outputs], words, Unrolled::word_of(words, after[at]) & lanes, weaker);
        for (const Guess &guess : weaker) {
            const std::size_t of = add(guess);
            is_hit.resize(members.size(), 0);
            is_hit[of] = 1;
            proved[of] = 0;
            if (needed[of]) need(static_cast<int>(of));
        }
        for (std::size_t at = 0; at < members.size(); at++)
            if (is_hit[at] && !resets) arm(static_cast<int>(at));
        for (std::size_t at = 0; at < members.size(); at++)
            for (const int other : core[at])
                if (is_hit[other] && proved[at]) {
                    proved[at] = 0;
                    need(static_cast<int>(at));
                    break;
                }
    }

    // The guess under the finer conditions that are not met after the bit times in which it is refuted, which are lanes
    // of `words`.
    void weaken(const Guess &guess, std::vector<Word> &words, Word refuting, std::vector<Guess> &made) {
        for (const int finer : conditions.finer(guess.condition)) {
            const Guess weaker{finer, guess.target, guess.literal};
            if (!conditions.is_met(finer)) continue;
            if (!known.insert({{finer, guess.target, guess.literal}, DEAD}).second) continue;
            const Literal condition = unrolled.of(1, conditions.literal(finer));
            unrolled.extend(words);
            if (const Word met = Unrolled::word_of(words, condition) & refuting)
                weaken(weaker, words, met, made);
            else if (!is_implied(weaker))
                made.push_back(weaker);
        }
    }
    // Whether it follows from a guess under a coarser condition.
    bool is_implied(const Guess &guess) const {
        for (const int coarser : conditions.coarser(guess.condition)) {
            const auto found = known.find({coarser, guess.target, guess.literal});
            if (found != known.end() && found->second != DEAD && alive[found->second]) return true;
        }
        return false;
    }

    std::vector<char> reasons_for(const std::vector<int> &gone) {
        const int refuted = *std::find_if(gone.begin(), gone.end(), [&](int at) { return unrolled.value(after[at]); });
        return unrolled.reasons(after[refuted]);
    }
    bool is_reason(const std::vector<char> &reasons, int signal) {
        if (!unrolled.is_made(signal)) return false;
        const auto at = static_cast<std::size_t>(unrolled.of(0, 2 * signal) >> 1);
        return at < reasons.size() && reasons[at];
    }
    std::vector<int> of_design(const std::vector<char> &reasons) {
        std::vector<int> made;
        for (const int signal : graph.list("design"))
            if (is_reason(reasons, signal)) made.push_back(signal);
        return made;
    }

    // The first state by which a guess was given up that the state found does not meet: a guess about a register whose
    // value is a reason for what is refuted; if there is none, any guess.
    int earlier(const std::vector<char> &reasons) {
        int any = -1, of_reasons = -1;
        const auto take = [](int &first, int state) { first = first < 0 ? state : std::min(first, state); };
        for (std::size_t at = outputs; at < alive.size(); at++) {
            if (given_up_by[at] < 0 || before[at] < 2 || !unrolled.value(before[at])) continue;
            take(any, given_up_by[at]);
            if (is_reason(reasons, guesses[at - outputs].target)) take(of_reasons, given_up_by[at]);
        }
        return of_reasons < 0 ? any : of_reasons;
    }

    int likeliest_violated() const {
        int best = -1;
        for (std::size_t at = 0; at < members.size(); at++) {
            const bool is_better = best < 0 || costs[at] < costs[best];
            if (!needed[at] && armed[at] && is_better && is_violated(at)) best = static_cast<int>(at);
        }
        return best;
    }

    char value_before(int signal) {
        if (!unrolled.is_made(signal)) return '?';
        const Literal literal = unrolled.of(0, 2 * signal);
        return !unrolled.is_known(literal) ? '?' : unrolled.value(literal) ? '1' : '0';
    }
    std::string state() {
        std::string made;
        for (const Register &held : play::registers_of(graph, "registers")) made += value_before(held.signal);
        return made;
    }
    std::string inputs() {
        std::string made;
        for (const int signal : graph.list("inputs")) made += value_before(signal);
        return made;
    }

    const Graph &graph;
    const Conditions &conditions;
    std::vector<Guess> guesses;
    bool resets, fine, is_reducing = false, is_lost = false, is_complete = false;
    Waiting waiting;
    Unrolled unrolled;
    std::size_t outputs = 0;
    std::unordered_set<int> own, always_asked;
    std::unordered_map<int, int> kinds;
    std::unordered_map<int, int> word_of;
    std::map<std::array<int, 3>, int> groups;
    std::map<std::array<int, 3>, int> known;  // with the place of a guess, if it was made
    std::vector<Literal> before, after;  // that a guess doesn't hold, in the first and in the second bit time
    std::vector<std::vector<int>> members, core;
    std::vector<int> group, armed, queue, costs, given_up_by;
    std::vector<char> violated;
    std::vector<char> alive, proved, needed, is_queued, likely, needs_more;
    Counts tally;
    Literals required;  // assumptions, and that the circuit's state is legal
    play::Dice dice{3};
    std::vector<Refuting> states;
};

}  // namespace find
