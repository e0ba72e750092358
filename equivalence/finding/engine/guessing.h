// Guesses: under a condition, a register equals a literal. They are what holds in all samples.
#pragma once

#include <algorithm>
#include <cstdint>
#include <unordered_map>
#include <unordered_set>
#include <vector>

#include "conditions.h"
#include "progress.h"

namespace find {

struct Guess {
    int condition, target;  // the condition's number, the register's signal
    Literal literal;
};

// What a register may equal, the likelier the less: the circuit's registers; its wide ones; words of words.v; gates;
// what it held a bit time ago; the wiring's registers; the design's.
enum Kind { REGISTER, WIDE, KNOWN, CIRCUIT, EARLIER, WIRING, DESIGN };

class Guessing {
public:
    Guessing(const Graph &graph, Conditions &conditions, const Samples &samples)
        : graph(graph),
          conditions(conditions),
          values(graph, samples),
          targets(graph.list("targets")),
          wide(flags("wide")),
          own(flags("own")),
          of_roles(flags("role_conditions")),
          of_wiring(flags("wiring")),
          of_events(flags("event_conditions")) {
        const Literals &pairs = graph.list("partners");
        for (std::size_t at = 0; at + 1 < pairs.size(); at += 2) {
            partners.push_back(pairs[at]);
            kinds[pairs[at] >> 1] = static_cast<Kind>(pairs[at + 1]);
            ranks[pairs[at] >> 1] = static_cast<int>(at);
        }
        const std::vector<int> &meant = graph.list("domains");
        for (std::size_t at = 0; at + 1 < meant.size(); at += 2) domains[meant[at]] = meant[at + 1];
        Dice dice(11);
        for (std::size_t at = 0; at < values.size(); at++) factors.push_back(dice.next() | 1);
    }

    // What does not follow from a guess under a coarser condition. Those in `dead` are not made, nothing follows from
    // them. Guesses from before are kept, except those about registers about which one is dead.
    std::vector<Guess> all(const std::vector<Guess> &dead, const std::vector<Guess> &known, Progress &progress) {
        std::unordered_set<int> renewed;
        for (const Guess &guess : dead) {
            is_dead.insert(code(guess));
            renewed.insert(guess.target);
        }
        std::vector<Guess> made;
        for (const Guess &guess : known)
            if (!renewed.count(guess.target)) made.push_back(guess);
        const auto keep_renewed = [&](std::vector<int> signals) {
            const auto is_kept = [&](int signal) { return !known.empty() && !renewed.count(signal); };
            signals.erase(std::remove_if(signals.begin(), signals.end(), is_kept), signals.end());
            return signals;
        };
        for (const Guess &guess : named())
            if (known.empty() || renewed.count(guess.target)) made.push_back(guess);
        targets = keep_renewed(targets);
        number_targets();
        const std::vector<int> registers = targets, pairs = keep_renewed(graph.list("pairs"));
        const std::unordered_set<int> of_pairs = flags("pair_conditions");
        covered.assign(conditions.size(), std::vector<char>(registers.size(), 0));
        for (std::size_t at = 0; at < conditions.size(); at++) {
            progress.show();
            if (!of_pairs.count(static_cast<int>(at))) guess_under(static_cast<int>(at), made);
        }
        guess_gates(made);
        targets = pairs;
        number_targets();
        covered.assign(conditions.size(), std::vector<char>(pairs.size(), 0));
        for (const int condition : graph.list("pair_conditions")) guess_under(condition, made);
        return made;
    }

    // For each word of the design the greatest value in the samples, as a gate that is 1 up to it: it always is.
    std::vector<Guess> ranges(Graph &extended) const {
        std::vector<Guess> made;
        const std::vector<int> &words = graph.list("ranges");
        std::vector<int> names = graph.list("words"), printed;
        for (std::size_t at = 0; at < words.size(); at += words[at] + 1) {
            const Literals word(words.begin() + at + 2, words.begin() + at + 1 + words[at]);
            const int most = greatest(word);
            if (most + 1 == 1 << word.size()) continue;
            Literal within = 1;
            for (std::size_t place = 0; place < word.size(); place++) {
                const bool bit = most >> place & 1;
                const Literal a = bit ? word[place] : word[place] ^ 1, b = bit ? within ^ 1 : within;
                within = extended.both(a, b) ^ bit;
            }
            if (within < 2) continue;
            made.push_back({0, within >> 1, 1 ^ (within & 1)});
            names.insert(names.end(), {within >> 1, words[at + 1]});
            printed.insert(printed.end(), {within >> 1, words[at + 1], most});
        }
        extended.set("words", names);
        extended.set("limits", printed);
        return made;
    }

private:
    static constexpr int FEW = 24, RARE = 6;       // states
    static constexpr int EQUALS = 2;               // guesses of one register under one condition, of each kind
    static constexpr std::size_t FIRST = 6, LAST = 10;  // of many gates, by depth

    struct Mask {
        std::vector<std::size_t> places;
        std::vector<Word> words;
        Word total = 0;
        int states = 0;
    };

    std::unordered_set<int> flags(const std::string &name) const {
        return {graph.list(name).begin(), graph.list(name).end()};
    }
    static std::uint64_t code(const Guess &guess) {
        return (static_cast<std::uint64_t>(guess.condition) << 48) ^ (static_cast<std::uint64_t>(guess.target) << 24) ^
               static_cast<std::uint64_t>(guess.literal);
    }
    bool has_died(const Guess &guess) const { return is_dead.count(code(guess)) != 0; }

    Mask mask_of(Literal condition) const {
        Mask made;
        for (std::size_t at = 0; at < values.size(); at++)
            if (const Word word = values.word(condition, at)) {
                made.places.push_back(at);
                made.words.push_back(word);
                made.total += word * factors[at];
                made.states += __builtin_popcountll(word);
            }
        return made;
    }
    // A linear hash of a signal in the states of a mask: that of its complement is the total less this.
    Word hash(const Mask &mask, int signal) const {
        const Word *held = values.of(signal);
        Word made = 0;
        for (std::size_t at = 0; at < mask.places.size(); at++)
            made += (held[mask.places[at]] & mask.words[at]) * factors[mask.places[at]];
        return made;
    }
    int rarer(const Mask &mask, int signal) const {
        int made = 0;
        for (std::size_t at = 0; at < mask.places.size(); at++)
            made += __builtin_popcountll(values.of(signal)[mask.places[at]] & mask.words[at]);
        return std::min(made, mask.states - made);
    }

    int greatest(const Literals &word) const {
        std::vector<Word> left(values.size());
        for (std::size_t at = 0; at < left.size(); at++) left[at] = values.word(1, at);
        int made = 0;
        for (std::size_t place = word.size(); place-- > 0;) {
            std::vector<Word> with(left.size());
            Word any = 0;
            for (std::size_t at = 0; at < left.size(); at++) any |= with[at] = left[at] & values.word(word[place], at);
            if (!any) continue;
            made |= 1 << place;
            left = with;
        }
        return made;
    }

    // The guesses that the caller names, if they hold in all samples.
    std::vector<Guess> named() const {
        std::vector<Guess> made;
        const std::vector<int> &given = graph.list("named_guesses");
        for (std::size_t at = 0; at + 2 < given.size(); at += 3) {
            const Guess guess{given[at], given[at + 1], given[at + 2]};
            bool holds = !has_died(guess);
            for (std::size_t word = 0; holds && word < values.size(); word++)
                holds = !(values.word(conditions.literal(guess.condition), word) &
                          (values.word(2 * guess.target, word) ^ values.word(guess.literal, word)));
            if (holds) made.push_back(guess);
        }
        return made;
    }

    void number_targets() {
        places.clear();
        for (std::size_t at = 0; at < targets.size(); at++) places[targets[at]] = static_cast<int>(at);
    }

    bool is_covered(int condition, int place) const {
        for (const int other : conditions.coarser(condition))
            if (covered[other][place]) return true;
        return false;
    }

    // The circuit's registers are compared under conditions on the role, the wiring's under those on the last event.
    bool is_target(int signal, int condition) const {
        if (own.count(signal)) return of_roles.count(condition) && means_something(2 * signal, condition);
        return !of_wiring.count(signal) || condition == 0 || of_events.count(condition);
    }

    void guess_under(int condition, std::vector<Guess> &made) {
        std::vector<int> open;
        for (std::size_t at = 0; at < targets.size(); at++)
            if (!is_covered(condition, static_cast<int>(at)) && is_target(targets[at], condition))
                open.push_back(targets[at]);
        const Mask mask = mask_of(conditions.literal(condition));
        states[condition] = mask.states;
        // a coarser condition that the same states meet has said it all
        const auto &coarser = conditions.coarser(condition);
        const bool is_new = std::none_of(coarser.begin(), coarser.end(),
                                         [&](int other) { return states[other] == mask.states; });
        conditions.set_met(condition, mask.states && (is_new || !conditions.only(condition).empty()));
        if (open.empty() || !conditions.is_met(condition)) return;
        std::unordered_map<Word, std::vector<int>> wanted;
        // a level that is always the same, as a start of frame is, is still the level that a register keeps
        const bool is_of_level = conditions.only(condition).size() == 1;
        for (const int signal : open) {
            const Word one = hash(mask, signal);
            if (!is_of_level && (one == 0 || one == mask.total))
                take_constant(condition, signal, one != 0, mask, made);
            else if (!own.count(signal))
                wanted[one].push_back(signal);
        }
        if (wanted.empty()) return;
        std::unordered_map<int, Literals> equal;
        const auto match = [&](Literal literal, Word one) {
            const auto found = wanted.find(one);
            if (found == wanted.end()) return;
            for (const int signal : found->second)
                if (signal != literal >> 1) equal[signal].push_back(literal);
        };
        for (const Literal partner : conditions.only(condition).empty() ? partners : conditions.only(condition)) {
            const Word one = hash(mask, partner >> 1);
            const bool is_constant = one == 0 || one == mask.total;
            if (!is_constant || !(partner & 1)) match(partner & ~1, one);
            if (!is_constant || partner & 1) match(partner | 1, mask.total - one);
        }
        for (const int signal : open)
            if (const auto found = equal.find(signal); found != equal.end())
                take_equal(condition, signal, found->second, mask, made);
    }

    void take_constant(int condition, int signal, bool value, const Mask &mask, std::vector<Guess> &made) {
        if (mask.states < FEW || !conditions.only(condition).empty()) return;
        const Guess guess{condition, signal, value};
        if (has_died(guess)) return;
        made.push_back(guess);
        covered[condition][places[signal]] = 1;
    }

    // Whether a literal of the circuit means something under a condition: what is heard only in a frame, for example.
    bool means_something(Literal literal, int condition) const {
        const auto found = domains.find(literal >> 1);
        return found == domains.end() || found->second <= graph.list("condition_domains")[condition];
    }

    void take_equal(int condition, int signal, Literals equal, const Mask &mask, std::vector<Guess> &made) {
        const bool is_rare = rarer(mask, signal) < RARE, is_narrow = !wide.count(signal) || condition == 0;
        const auto kind = [&](Literal literal) {
            const auto found = kinds.find(literal >> 1);
            return found == kinds.end() ? KNOWN : found->second;
        };
        const auto rank = [&](Literal literal) {
            const auto found = ranks.find(literal >> 1);
            return found == ranks.end() ? -1 : found->second;
        };
        Literals best, gates, late;
        int of_kind[KNOWN + 1] = {};
        std::stable_sort(equal.begin(), equal.end(), [&](Literal a, Literal b) { return rank(a) < rank(b); });
        for (const Literal literal : equal) {
            if (has_died({condition, signal, literal}) || !means_something(literal, condition)) continue;
            const Kind of = kind(literal);
            // the design's registers equal only those that come before them
            if (of >= WIRING && rank(literal) > rank(2 * signal)) continue;
            if (of > KNOWN && (is_rare || !is_narrow)) continue;
            if (of <= KNOWN && ++of_kind[of] > EQUALS) continue;
            (of <= KNOWN ? best : of == CIRCUIT ? gates : late).push_back(literal);
        }
        if (gates.size() > FIRST + LAST) gates.erase(gates.begin() + FIRST, gates.end() - LAST);
        if (late.size() > 1) late.resize(1);
        const Literals &chosen = !best.empty() ? best : !gates.empty() ? gates : late;
        for (const Literal literal : chosen) made.push_back({condition, signal, literal});
        if (!chosen.empty() && (&chosen != &late || condition == 0)) covered[condition][places[signal]] = 1;
    }

    // Registers of the circuit that no register of the design equals, but one of its gates does.
    void guess_gates(std::vector<Guess> &made) {
        std::unordered_set<int> taken;
        for (const Guess &guess : made)
            if (guess.condition == 0 && !own.count(guess.target)) taken.insert(guess.literal >> 1);
        const std::vector<int> &nodes = graph.list("design_gates");
        for (const int condition : graph.list("gate_conditions")) {
            const Mask mask = mask_of(conditions.literal(condition));
            std::unordered_map<Word, std::vector<int>> goals;
            for (const int signal : targets) {
                if (!own.count(signal) || taken.count(signal) || !means_something(2 * signal, condition)) continue;
                const Word one = hash(mask, signal);
                if (one != 0 && one != mask.total) goals[one].push_back(signal);
            }
            if (goals.empty()) continue;
            std::unordered_map<int, Literals> equal;
            for (const int node : nodes) {
                const Word one = hash(mask, node);
                for (const bool negated : {false, true})
                    if (const auto found = goals.find(negated ? mask.total - one : one); found != goals.end())
                        for (const int signal : found->second) equal[signal].push_back(2 * node + negated);
            }
            for (const int signal : targets) {
                auto found = equal.find(signal);
                if (found == equal.end()) continue;
                Literals &chosen = found->second;
                if (chosen.size() > 6) chosen.erase(chosen.begin() + 3, chosen.end() - 3);
                for (const Literal literal : chosen)
                    if (const Guess guess{condition, signal, literal}; !has_died(guess)) {
                        made.push_back(guess);
                        taken.insert(signal);
                    }
            }
        }
    }

    const Graph &graph;
    Conditions &conditions;
    Values values;
    std::vector<int> targets;
    std::unordered_set<int> wide, own, of_roles, of_wiring, of_events;
    Literals partners;
    std::unordered_map<int, Kind> kinds;
    std::unordered_map<int, int> ranks, places, domains;
    std::vector<Word> factors;
    std::vector<int> states = std::vector<int>(conditions.size(), -1);
    std::unordered_set<std::uint64_t> is_dead;
    std::vector<std::vector<char>> covered;
};

}  // namespace find
