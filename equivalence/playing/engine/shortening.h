// Makes a run with a difference short: bit times are left out, and what disturbs them, as long as outputs still differ.
#pragma once

#include <algorithm>
#include <cstdint>
#include <utility>
#include <vector>

#include "playing.h"
#include "runs.h"

namespace play {

// A change of a run, from one row on.
struct Edit {
    enum Kind {
        CUT,
        CUT_KEEPING,
        CALM,
        INSTEAD_OF_FORCED,
        NO_OFFERS,
        NO_REQUESTS,
        NO_OTHERS,
        NO_INTEGRATION,
        PLAIN_FRAMES,
        NO_DATA,
        KINDS
    };
    Kind kind;
    int from, size;
};

class Shortening {
public:
    Shortening(const Graph &graph, int change, const Run &run) : replay(graph, change), best(run), dice(7) {}

    // Whether the run, played again from its reset, has a difference; it ends there then.
    bool begin() { return take({best}); }

    // Shortens it until nothing more is found, or until runs were played again for some clock cycles; then it is false.
    bool shorten(std::int64_t cycles) {
        make_plain();
        int idle = 0;
        while (idle < IDLE && replay.cycles() < cycles) idle = improve() ? 0 : idle + 1;
        return idle == IDLE;
    }

    const Run &run() const { return best; }
    bool needs_start() const { return std::find(best.start.begin(), best.start.end(), 1) != best.start.end(); }

private:
    // What is tried first, so that a kit case can say the run: as many of these changes as there can be.
    void make_plain() {
        std::vector<int> tried(1 << PLAINS);
        for (std::size_t at = 0; at < tried.size(); at++) tried[at] = static_cast<int>(at);
        std::stable_sort(tried.begin(), tried.end(), [](int one, int other) {
            return __builtin_popcount(static_cast<unsigned>(one)) > __builtin_popcount(static_cast<unsigned>(other));
        });
        std::vector<Run> runs;
        for (const int changes : tried) runs.push_back(plain(best, changes));
        take(runs);
    }

    static constexpr int PLAINS = 5;

    static Run plain(Run run, int changes) {
        if (changes & 1) queue(run);
        if (changes & 2) enable(run);
        if (changes & 4) std::fill(run.start.begin(), run.start.end(), 0);
        if (changes & 8)
            for (Frame &frame : run.frames) frame = cleaned(frame);
        if (changes & 16)
            for (Row &row : run.rows) row.other = run.others ? 0 : -1;
        return run;
    }

    // Leaves the clock cycles out in which no bit time ends.
    static void enable(Run &run) {
        std::vector<Row> rows;
        for (const Row &row : run.rows)
            if (row.enable || row.reset) rows.push_back(row), rows.back().enable = true;
        run.rows = rows;
    }

    // A frame is offered when it begins to be pending, or replaces another one.
    static void queue(Run &run) {
        int before = -1;
        for (Row &row : run.rows) {
            if (row.reset) before = -1;
            row.offer = row.frame >= 0 && row.frame != before ? row.frame : -1;
            before = row.frame;
        }
        run.is_queued = true;
    }

    static Frame cleaned(Frame frame) {
        if (!frame.extended) frame.identifier &= 0x7ff;
        const unsigned bytes = frame.remote ? 0 : std::min(frame.dlc, 8u);
        if (bytes < 8) frame.data &= (std::uint64_t{1} << 8 * bytes) - 1;
        return frame;
    }

    // Takes the first of these runs that has a difference.
    bool take(const std::vector<Run> &runs) {
        const std::vector<int> found = replay.differences(runs);
        for (std::size_t at = 0; at < runs.size(); at++)
            if (found[at] >= 0) {
                best = runs[at];
                best.rows.resize(found[at] + 1);
                return true;
            }
        return false;
    }

    static constexpr int IDLE = 8;                  // batches without an improvement, before it ends
    static constexpr std::size_t FORCED_COSTS = 8;  // bit times
    static constexpr int ENOUGH = 64;               // of a batch; those with a difference first are the shortest

    using Score = std::pair<std::size_t, int>;
    // The number of bit times, and more for levels that many a bench can't force; then what is not quiet in them.
    static Score score(const Run &run, int rows) {
        int weight = run.rows[0].integrating;
        std::size_t size = static_cast<std::size_t>(rows);
        for (int at = 0; at < rows; at++) {
            const Row &row = run.rows[at];
            size += row.action == Action::FORCED ? FORCED_COSTS : 0;
            weight += 2 * (row.action != Action::RECESSIVE) + 4 * (row.request >= 0);
            if (row.offer < 0 && run.is_queued) continue;
            if (const int frame = run.is_queued ? row.offer : row.frame; frame >= 0)
                weight += 8 + weight_of(run.frames[frame]);
        }
        return {size, weight};
    }
    static int weight_of(const Frame &frame) {
        return frame.extended + 2 * frame.remote + __builtin_popcountll(frame.data) + __builtin_popcount(frame.dlc);
    }

    // A batch of single edits, then one of several at once of those that succeeded.
    bool improve() {
        std::vector<std::vector<Edit>> tried;
        for (int at = 0; at < LANES; at++) tried.push_back({any_edit()});
        const std::vector<std::pair<Score, Edit>> good = tried_singly(tried);
        if (good.empty()) return false;
        tried.assign(1, {good[0].second});
        for (std::size_t size = 2; size <= good.size() && tried.size() < LANES / 2; size += 1 + size / 8) {
            tried.emplace_back();
            for (std::size_t at = 0; at < size; at++) tried.back().push_back(good[at].second);
        }
        while (good.size() > 2 && tried.size() < LANES) {
            tried.emplace_back();
            for (const auto &[unused, edit] : good)
                if (dice.one_in(2)) tried.back().push_back(edit);
        }
        return take_best(tried);
    }

    std::vector<std::pair<Score, Edit>> tried_singly(const std::vector<std::vector<Edit>> &tried) {
        std::vector<Run> runs;
        for (const std::vector<Edit> &edits : tried) runs.push_back(with(edits));
        const std::vector<int> found = replay.differences(runs, ENOUGH);
        std::vector<std::pair<Score, Edit>> good;
        const Score now = score(best, static_cast<int>(best.rows.size()));
        for (std::size_t at = 0; at < runs.size(); at++)
            if (found[at] >= 0 && score(runs[at], found[at] + 1) < now)
                good.push_back({score(runs[at], found[at] + 1), tried[at][0]});
        std::stable_sort(good.begin(), good.end(),
                         [](const auto &one, const auto &other) { return one.first < other.first; });
        return good;
    }

    bool take_best(const std::vector<std::vector<Edit>> &tried) {
        std::vector<Run> runs;
        for (const std::vector<Edit> &edits : tried) runs.push_back(with(edits));
        const std::vector<int> found = replay.differences(runs, ENOUGH);
        int which = -1;
        for (int at = 0; at < static_cast<int>(runs.size()); at++)
            if (found[at] >= 0 && (which < 0 || score(runs[at], found[at] + 1) < score(runs[which], found[which] + 1)))
                which = at;
        if (which < 0) return false;
        best = runs[which];
        best.rows.resize(found[which] + 1);
        return true;
    }

    Edit any_edit() {
        const int rows = static_cast<int>(best.rows.size());
        const int most = std::max(1, rows - 1);
        int size = 1;
        while (size < most && !dice.one_in(4)) size *= 2;
        size = std::max(1, std::min(most, size - static_cast<int>(dice.below(static_cast<unsigned>(size / 2 + 1)))));
        const auto kind = dice.one_in(2) ? Edit::CUT : static_cast<Edit::Kind>(dice.below(Edit::KINDS));
        const auto places = static_cast<unsigned>(std::max(1, rows - size));
        return {kind, 1 + static_cast<int>(dice.below(places)), size};
    }

    Run with(std::vector<Edit> edits) const {
        std::stable_sort(edits.begin(), edits.end(),
                         [](const Edit &one, const Edit &other) { return one.from > other.from; });
        Run made = best;
        for (const Edit &edit : edits) change(made, edit);
        return made;
    }

    void change(Run &run, const Edit &edit) const {
        const int from = edit.from, to = std::min(edit.from + edit.size, static_cast<int>(run.rows.size()));
        if (from >= to) return;
        if (edit.kind == Edit::CUT || edit.kind == Edit::CUT_KEEPING)
            return cut(run, from, to, edit.kind == Edit::CUT_KEEPING);
        if (edit.kind == Edit::NO_INTEGRATION) run.rows[0].integrating = false;
        for (int at = from; at < to; at++) change(run, run.rows[at], edit.kind);
    }

    void change(Run &run, Row &row, Edit::Kind kind) const {
        int &frame = run.is_queued ? row.offer : row.frame;
        if (kind == Edit::CALM) row.action = Action::RECESSIVE;
        if (kind == Edit::INSTEAD_OF_FORCED)
            row.action = row.action == Action::FORCED ? Action::RECESSIVE : Action::DOMINANT;
        if (kind == Edit::NO_OFFERS) frame = -1;
        if (kind == Edit::NO_REQUESTS) row.request = -1;
        if (kind == Edit::NO_OTHERS && row.other > 0) row.other = 0;
        if ((kind != Edit::PLAIN_FRAMES && kind != Edit::NO_DATA) || frame < 0) return;
        Frame plain = run.frames[frame];
        plain.data = 0;
        if (kind == Edit::PLAIN_FRAMES) plain.extended = plain.remote = false, plain.identifier &= 0x7ff, plain.dlc = 0;
        run.frames.push_back(replay.wires().own.possible(plain));
        frame = static_cast<int>(run.frames.size()) - 1;
    }

    // Leaves rows out; frames that were offered in them are offered in the first rows after them, if they are kept.
    static void cut(Run &run, int from, int to, bool keeps_offers) {
        std::vector<int> offers;
        for (int at = from; at < to && keeps_offers; at++)
            if (run.rows[at].offer >= 0) offers.push_back(run.rows[at].offer);
        run.rows.erase(run.rows.begin() + from, run.rows.begin() + to);
        for (std::size_t at = from; at < run.rows.size() && !offers.empty(); at++)
            if (run.rows[at].offer < 0) run.rows[at].offer = offers.front(), offers.erase(offers.begin());
    }

    Replay replay;
    Run best;
    Dice dice;
};

}  // namespace play
