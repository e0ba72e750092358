// States that a play has reached: at most a number of each kind, where a kind is the value of some literals.
#pragma once

#include <algorithm>
#include <cstdint>
#include <unordered_map>
#include <vector>

#include "../../playing/engine/graph.h"

namespace find {

using play::Dice;
using play::Gate;
using play::Graph;
using play::Lanes;
using play::Literal;
using play::Literals;
using play::Program;
using play::Register;

using Word = std::uint64_t;  // a bit of each of 64 states

class Samples {
public:
    Samples(const Graph &graph, std::size_t most)
        : key(graph.list("key")), registers(play::registers_of(graph, "registers")), most(most), dice(1) {}

    // Takes the states of some lanes before the clock edge, each at the place of an earlier one if its kind is full.
    void take(const Program &program, const Lanes &which) {
        std::vector<Lanes> bits;
        for (const Literal literal : key) bits.push_back(program.value(literal));
        play::each(which, [&](int lane) {
            const Word kind = kind_of(bits, lane);
            Kind &of = kinds[kind];
            const std::size_t seen = of.seen++;
            if (of.rows.size() < most) {
                of.rows.push_back(rows.size());
                rows.push_back({kind, row(program, lane)});
            } else if (const Word at = dice.next() % (seen + 1); at < most) {
                rows[of.rows[at]].values = row(program, lane);
            }
        });
    }

    void add(const Program &program, int lane) {
        std::vector<Lanes> bits;
        for (const Literal literal : key) bits.push_back(program.value(literal));
        rows.push_back({kind_of(bits, lane), row(program, lane)});
    }

    // States of a kind are next to one another: so those that meet a condition are in few words of 64.
    void sort() {
        std::stable_sort(rows.begin(), rows.end(), [](const Row &a, const Row &b) { return a.kind < b.kind; });
        kinds.clear();
    }

    std::size_t size() const { return rows.size(); }
    std::size_t number_of_kinds() const { return kinds.size(); }
    bool value(std::size_t at, std::size_t held) const { return rows[at].values[held / 64] >> held % 64 & 1; }
    const std::vector<Register> &held() const { return registers; }

private:
    struct Kind {
        std::size_t seen = 0;
        std::vector<std::size_t> rows;
    };
    struct Row {
        Word kind;
        std::vector<Word> values;
    };

    static Word kind_of(const std::vector<Lanes> &bits, int lane) {
        Word made = 0;
        for (const Lanes &bit : bits) made = made << 1 | Word{play::has(bit, lane)};
        return made;
    }
    std::vector<Word> row(const Program &program, int lane) const {
        std::vector<Word> made((registers.size() + 63) / 64, 0);
        for (std::size_t at = 0; at < registers.size(); at++)
            made[at / 64] |= Word{play::has(program.value(2 * registers[at].signal), lane)} << at % 64;
        return made;
    }

    Literals key;
    std::vector<Register> registers;
    std::size_t most;
    Dice dice;
    std::unordered_map<Word, Kind> kinds;
    std::vector<Row> rows;
};

// The values of all signals in the samples. Inputs are 0: what depends on one means nothing.
class Values {
public:
    Values(const Graph &graph, const Samples &samples)
        : words((samples.size() + 63) / 64), count(samples.size()), values(graph.gates.size() * words, 0) {
        for (std::size_t at = 0; at < samples.size(); at++)
            for (std::size_t held = 0; held < samples.held().size(); held++)
                if (samples.value(at, held)) row(samples.held()[held].signal)[at / 64] |= Word{1} << at % 64;
        for (std::size_t signal = 1; signal < graph.gates.size(); signal++) {
            const Gate gate = graph.gates[signal];
            if (!gate.is_gate()) continue;
            const Word *a = row(gate.a >> 1), *b = row(gate.b >> 1);
            const Word is_a_negated = -Word(gate.a & 1), is_b_negated = -Word(gate.b & 1);
            Word *made = row(static_cast<int>(signal));
            for (std::size_t at = 0; at < words; at++) made[at] = (a[at] ^ is_a_negated) & (b[at] ^ is_b_negated);
        }
    }

    const Word *of(int signal) const { return &values[signal * words]; }
    Word word(Literal literal, std::size_t at) const {
        const Word held = of(literal >> 1)[at] ^ -Word(literal & 1);
        return at + 1 == words && count % 64 ? held & ((Word{1} << count % 64) - 1) : held;
    }
    std::size_t size() const { return words; }

private:
    Word *row(int signal) { return &values[signal * words]; }

    std::size_t words, count;
    std::vector<Word> values;
};

}  // namespace find
