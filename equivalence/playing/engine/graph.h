// The and-inverter graph of both controllers and their partner, as Python wrote it, and its evaluation.
#pragma once

#include <algorithm>
#include <array>
#include <cstdint>
#include <fstream>
#include <map>
#include <sstream>
#include <stdexcept>
#include <string>
#include <vector>

#include "lanes.h"

namespace play {

// A literal is twice the number of a signal, plus one if it is negated; signal 0 is false.
using Literal = int;
using Literals = std::vector<Literal>;

struct Gate {
    Literal a, b;
    bool is_gate() const { return a >= 0; }
};

// The file: on each line a name, then numbers.
class Graph {
public:
    explicit Graph(const std::string &path) {
        std::ifstream file(path);
        std::string line;
        while (std::getline(file, line)) {
            std::istringstream words(line);
            std::string name;
            words >> name;
            std::vector<int> &numbers = lists[name];
            for (int number; words >> number;) numbers.push_back(number);
        }
        gates.assign(number("signals"), Gate{-1, -1});
        const std::vector<int> &triples = list("gates");
        for (std::size_t at = 0; at + 2 < triples.size(); at += 3)
            gates[triples[at]] = {triples[at + 1], triples[at + 2]};
    }

    const std::vector<int> &list(const std::string &name) const {
        const auto found = lists.find(name);
        if (found == lists.end()) throw std::runtime_error("the graph has no list " + name);
        return found->second;
    }
    int number(const std::string &name) const { return list(name).at(0); }
    // A new gate: the AND of two literals.
    Literal both(Literal a, Literal b) {
        if (a == 0 || b == 0 || a == (b ^ 1)) return 0;
        if (a == 1 || a == b) return b;
        if (b == 1) return a;
        gates.push_back({a, b});
        return 2 * (static_cast<int>(gates.size()) - 1);
    }
    void set(const std::string &name, const std::vector<int> &numbers) { lists[name] = numbers; }

    std::vector<Gate> gates;  // by signals, each after those that it reads

private:
    std::map<std::string, std::vector<int>> lists;
};

// A register: its signal, and the literal that it takes.
struct Register {
    int signal;
    Literal next;
};

inline std::vector<Register> registers_of(const Graph &graph, const std::string &name) {
    std::vector<Register> made;
    const std::vector<int> &pairs = graph.list(name);
    for (std::size_t at = 0; at + 1 < pairs.size(); at += 2) made.push_back({pairs[at], pairs[at + 1]});
    return made;
}

// The gates in the cone of some literals, in an order in which gates of one kind follow one another. An XOR or a
// multiplexer of three gates becomes one operation.
class Program {
public:
    // `late` are the signals that are known only after the early part: the levels of the bus.
    Program(const Graph &graph, const Literals &roots, const std::vector<int> &late) : gates(graph.gates) {
        count_readers(roots);
        find_operations();
        std::vector<char> is_late = after(late);
        schedule(early, is_late, false);
        schedule(end, is_late, true);
        values.assign(placed(), none());
    }

    void run_early() { run(early); }
    void run_late() { run(end); }

    Lanes value(Literal literal) const {
        const Lanes &held = values[places[literal >> 1]];
        return literal & 1 ? ~held : held;
    }
    Lanes &signal(int number) { return values[places[number]]; }

    bool is_late(Literal literal) const { return literal > 1 && late_signals[literal >> 1]; }

private:
    static constexpr int KINDS = 9;  // AND of 0, 1, 2 negated; XOR, XNOR; multiplexer with 0, 1 negated sides

    struct Operation {
        int made, a, b, test;
    };
    struct Part {
        std::vector<Operation> operations;
        std::vector<std::pair<int, int>> spans;  // a kind, and where it ends
    };

    void count_readers(const Literals &roots) {
        readers.assign(gates.size(), 0);
        for (const Literal root : roots) readers[root >> 1] += 2;  // a root is never absorbed
        for (std::size_t at = gates.size(); at-- > 1;) {
            if (!readers[at] || !gates[at].is_gate()) continue;
            readers[gates[at].a >> 1]++;
            readers[gates[at].b >> 1]++;
        }
    }

    bool is_inner(Literal literal) const {
        return literal & 1 && gates[literal >> 1].is_gate() && readers[literal >> 1] == 1;
    }

    // Whether a signal is the complement of a multiplexer `test ? a : b`, both of whose gates nobody else reads.
    bool is_choice(int signal, Literal &test, Literal &a, Literal &b) const {
        const Gate gate = gates[signal];
        if (!is_inner(gate.a) || !is_inner(gate.b) || gate.a == gate.b) return false;
        const Gate first = gates[gate.a >> 1], second = gates[gate.b >> 1];
        for (const auto &[p, q] : {std::pair{first.a, first.b}, std::pair{first.b, first.a}})
            for (const auto &[r, s] : {std::pair{second.a, second.b}, std::pair{second.b, second.a}})
                if (p == (r ^ 1)) {
                    test = p, a = q, b = s;
                    return true;
                }
        return false;
    }

    void find_operations() {
        kinds.assign(gates.size(), -1);
        made.resize(gates.size());
        for (std::size_t at = gates.size(); at-- > 1;) {
            if (!readers[at] || !gates[at].is_gate()) continue;
            const int signal = static_cast<int>(at);
            Literal test, a, b;
            if (!is_choice(signal, test, a, b)) {
                take_and(signal);
                continue;
            }
            readers[gates[at].a >> 1] = readers[gates[at].b >> 1] = 0;
            if (a == (b ^ 1)) {
                // the complement of test ? a : ~a is XOR(test, a)
                kinds[at] = 3 + ((test ^ a) & 1);
                made[at] = {signal, test >> 1, a >> 1, 0};
            } else {
                if (test & 1) std::swap(a, b);
                kinds[at] = 5 + (~a & 1) + 2 * (~b & 1);
                made[at] = {signal, a >> 1, b >> 1, test >> 1};
            }
        }
    }

    void take_and(int signal) {
        Literal a = gates[signal].a, b = gates[signal].b;
        if (a & ~b & 1) std::swap(a, b);
        kinds[signal] = (a & 1) + (b & 1);
        made[signal] = {signal, a >> 1, b >> 1, 0};
    }

    template <typename Call>
    void each_read(int signal, Call call) const {
        call(made[signal].a);
        call(made[signal].b);
        if (kinds[signal] >= 5) call(made[signal].test);
    }

    std::vector<char> after(const std::vector<int> &late) {
        late_signals.assign(gates.size(), 0);
        for (const int signal : late)
            if (signal >= 0) late_signals[signal] = 1;
        for (std::size_t at = 1; at < gates.size(); at++)
            if (kinds[at] >= 0)
                each_read(static_cast<int>(at), [&](int read) { late_signals[at] |= late_signals[read]; });
        return late_signals;
    }

    // Lists the operations of a part, as long a run of one kind as there is.
    void schedule(Part &part, const std::vector<char> &is_late, bool late) {
        std::vector<int> missing(gates.size(), 0);
        std::vector<std::vector<int>> waiting(gates.size());
        std::array<std::vector<int>, KINDS> ready;
        const auto is_here = [&](int signal) { return kinds[signal] >= 0 && is_late[signal] == late; };
        for (std::size_t at = 1; at < gates.size(); at++) {
            const int signal = static_cast<int>(at);
            if (!is_here(signal)) continue;
            each_read(signal, [&](int read) {
                if (is_here(read)) missing[signal]++, waiting[read].push_back(signal);
            });
            if (!missing[signal]) ready[kinds[signal]].push_back(signal);
        }
        for (;;) {
            const auto longest = std::max_element(ready.begin(), ready.end(), [](const auto &one, const auto &other) {
                return one.size() < other.size();
            });
            if (longest->empty()) return;
            for (std::size_t at = 0; at < longest->size(); at++) {
                const int signal = (*longest)[at];
                part.operations.push_back(made[signal]);
                for (const int reader : waiting[signal])
                    if (!--missing[reader]) ready[kinds[reader]].push_back(reader);
            }
            longest->clear();
            part.spans.push_back({static_cast<int>(longest - ready.begin()), static_cast<int>(part.operations.size())});
        }
    }

    // Gives each signal its place in memory, in the order in which they are computed, and returns how many there are.
    std::size_t placed() {
        places.assign(gates.size(), 0);
        int next = 1;
        for (std::size_t at = 1; at < gates.size(); at++)
            if (!gates[at].is_gate()) places[at] = next++;
        for (Part *part : {&early, &end})
            for (Operation &operation : part->operations) places[operation.made] = next++;
        for (Part *part : {&early, &end})
            for (Operation &operation : part->operations)
                operation = {places[operation.made], places[operation.a], places[operation.b], places[operation.test]};
        return next;
    }

    template <int KIND>
    void run_span(const Operation *from, const Operation *to) {
        Lanes *x = values.data();
        for (; from != to; from++) {
            const Lanes a = x[from->a], b = x[from->b];
            if constexpr (KIND == 0) x[from->made] = a & b;
            if constexpr (KIND == 1) x[from->made] = a & ~b;
            if constexpr (KIND == 2) x[from->made] = ~(a | b);
            if constexpr (KIND == 3) x[from->made] = a ^ b;
            if constexpr (KIND == 4) x[from->made] = ~(a ^ b);
            if constexpr (KIND >= 5) {
                const Lanes test = x[from->test];
                x[from->made] = (test & ((KIND - 5) & 1 ? ~a : a)) | (~test & ((KIND - 5) & 2 ? ~b : b));
            }
        }
    }

    void run(const Part &part) {
        int at = 0;
        for (const auto &[kind, ends] : part.spans) {
            const Operation *from = &part.operations[at], *to = part.operations.data() + ends;
            switch (kind) {
                case 0: run_span<0>(from, to); break;
                case 1: run_span<1>(from, to); break;
                case 2: run_span<2>(from, to); break;
                case 3: run_span<3>(from, to); break;
                case 4: run_span<4>(from, to); break;
                case 5: run_span<5>(from, to); break;
                case 6: run_span<6>(from, to); break;
                case 7: run_span<7>(from, to); break;
                default: run_span<8>(from, to);
            }
            at = ends;
        }
    }

    const std::vector<Gate> &gates;
    std::vector<int> readers, kinds, places;
    std::vector<Operation> made;
    std::vector<char> late_signals;
    Part early, end;
    std::vector<Lanes> values;
};

}  // namespace play
