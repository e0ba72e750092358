// The conditions of guesses, as Python listed them: the coarser ones first.
#pragma once

#include <algorithm>
#include <vector>

#include "samples.h"

namespace find {

class Conditions {
public:
    explicit Conditions(const Graph &graph)
        : literals(graph.list("conditions")),
          families(graph.list("families")),
          above(lists(graph.list("coarser"))),
          partners(lists(graph.list("only"))),
          below(literals.size()),
          met(literals.size(), 1) {
        for (std::size_t at = 0; at < literals.size(); at++)
            for (const int other : above[at])
                if (graph.list("weaker")[at] && is_next(other, at)) below[other].push_back(static_cast<int>(at));
    }

    std::size_t size() const { return literals.size(); }
    Literal literal(int at) const { return literals[at]; }
    // What a guess is proved together with: those of its word under conditions of one family.
    int family(int at) const { return families[at]; }
    const std::vector<int> &coarser(int at) const { return above[at]; }
    // The next finer ones.
    const std::vector<int> &finer(int at) const { return below[at]; }
    // What registers may equal under it; all partners if there is none.
    const Literals &only(int at) const { return partners[at]; }

    bool is_met(int at) const { return met[at]; }
    void set_met(int at, bool value) { met[at] = value; }

private:
    static std::vector<std::vector<int>> lists(const std::vector<int> &numbers) {
        std::vector<std::vector<int>> made;
        for (std::size_t at = 0; at < numbers.size(); at += numbers[at] + 1)
            made.emplace_back(numbers.begin() + at + 1, numbers.begin() + at + 1 + numbers[at]);
        return made;
    }
    // Whether no condition is between the two, of those under which given up guesses are kept.
    bool is_next(int coarse, std::size_t fine) const {
        return std::none_of(above[fine].begin(), above[fine].end(), [&](int other) {
            return std::binary_search(above[other].begin(), above[other].end(), coarse);
        });
    }

    Literals literals;
    std::vector<int> families;
    std::vector<std::vector<int>> above, partners, below;
    std::vector<char> met;
};

}  // namespace find
