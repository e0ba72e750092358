// One run from a reset: its inputs in each bit time, and the replay of up to 512 variants of it at once.
#pragma once

#include <cstdint>
#include <memory>
#include <vector>

#include "traffic.h"

namespace play {

// What drives the bus besides the controller; FORCED: the controller sees recessive, whatever it drives.
enum class Action : std::uint8_t { DOMINANT, RECESSIVE, FORCED };

// The inputs in a bit time. A frame is a number of Run::frames, -1 for none: `frame` is pending, `offer` joins a queue.
struct Row {
    bool reset = false, integrating = false, enable = true;
    Action action = Action::RECESSIVE;
    int request = -1;
    int frame = -1, offer = -1, other = -1;
};

struct Run {
    std::vector<char> start;  // the registers before the reset
    std::vector<Row> rows;    // a reset is first
    bool is_queued = false;   // whether frames wait in a queue, so that a kit case can say it
    std::vector<Frame> frames;
    // Values of the inputs that are none of the circuit's, first all 0; the variants of a run share them.
    std::shared_ptr<std::vector<std::vector<char>>> others;

    int keep(const Frame &frame) {
        if (frames.empty() || !(frames.back() == frame)) frames.push_back(frame);
        return static_cast<int>(frames.size()) - 1;
    }
    int keep(const std::vector<char> &other) {
        if (!others) others = std::make_shared<std::vector<std::vector<char>>>(1, std::vector<char>(other.size(), 0));
        if (others->back() != other) others->push_back(other);
        return static_cast<int>(others->size()) - 1;
    }
};

// What the wiring connects: the inputs, the registers of both controllers and of the wiring, and its parts.
struct Wiring {
    Node own;
    std::vector<Register> registers;
    std::vector<int> others, changes;  // other free signals; those that choose a change of the design
    std::size_t named;                 // how many of the others are inputs of the wiring; the rest is undefined
    std::vector<int> pacing;           // which of the others decide whether a bit time ends
    Literals phase, same, given;
    Literal enable, sender;

    explicit Wiring(const Graph &graph)
        : own(graph, ""),
          registers(registers_of(graph, "registers")),
          others(graph.list("others")),
          changes(graph.list("changes")),
          named(graph.number("named")),
          pacing(graph.list("pacing")),
          phase(graph.list("phase")),
          same(graph.list("same")),
          given(graph.list("given")),
          enable(graph.number("enable")),
          sender(graph.number("sender")) {}

    int bus() const { return own.bus.literal >> 1; }

    Literals roots() const {
        Literals made = own.outputs();
        for (const Register &held : registers) made.insert(made.end(), {2 * held.signal, held.next});
        for (const Literals *more : {&same, &given, &phase}) made.insert(made.end(), more->begin(), more->end());
        made.insert(made.end(), {enable, sender});
        return made;
    }
    void choose_change(Program &program, int change, Dice &dice) const {
        const unsigned limit = 1u << changes.size();
        for (int lane = 0; lane < LANES; lane++) {
            const unsigned number = change < 0 ? 1 + dice.below(limit - 1) : static_cast<unsigned>(change);
            for (std::size_t at = 0; at < changes.size(); at++)
                put(program.signal(changes[at]), lane, at < 32 && (number >> at & 1));
        }
    }
    // The clock edge.
    static void take(Program &program, const std::vector<Register> &registers, std::vector<Lanes> &room) {
        room.resize(registers.size());
        for (std::size_t at = 0; at < registers.size(); at++) room[at] = program.value(registers[at].next);
        for (std::size_t at = 0; at < registers.size(); at++) program.signal(registers[at].signal) = room[at];
    }
};

class Replay {
public:
    // Of the signals, at least those of `more` have values.
    Replay(const Graph &graph, int change, const Literals &more = {})
        : wiring(graph), program(graph, joined(wiring.roots(), more), {wiring.bus()}), queues(LANES) {
        Dice dice(1);
        wiring.choose_change(program, change, dice);
    }

    // For each of up to 512 runs the row in which outputs differ, or -1. It ends when enough of them have one.
    std::vector<int> differences(const std::vector<Run> &given, int enough = LANES) {
        runs = &given;
        begin();
        for (std::size_t cycle = most_cycles(); cycle && any(open) && enough > 0; cycle--) {
            evaluate();
            const Lanes differ = differing();
            enough -= count(differ);
            each(differ, [&](int lane) { found[lane] = at[lane]; });
            open &= ~differ;
            clock();
            played++;
        }
        return found;
    }

    // For how many clock cycles it has looked for differences.
    std::int64_t cycles() const { return played; }

    // Calls with each row of a run, whether outputs differ or not, before its clock edge.
    template <typename Call>
    void trace(const Run &run, Call call) {
        const std::vector<Run> one{run};
        runs = &one;
        begin();
        for (std::size_t cycle = most_cycles(); cycle && any(open); cycle--) {
            evaluate();
            if (has(moving(), 0)) call(run.rows[at[0]], program);
            clock();
        }
    }

    const Wiring &wires() const { return wiring; }

private:
    static constexpr std::size_t LONGEST = 100;  // clock cycles of a bit time

    static Literals joined(Literals one, const Literals &other) {
        one.insert(one.end(), other.begin(), other.end());
        return one;
    }

    std::size_t most_cycles() const {
        std::size_t most = 0;
        for (const Run &run : *runs) most = std::max(most, run.rows.size());
        return wiring.own.enable.is_free() || wiring.enable < 2 ? most : most * LONGEST;
    }

    // The levels that the circuit drives are known after the early part, so the tester's action gives the bus.
    void evaluate() {
        each(open & moved, [&](int lane) { show(lane); });
        moved = none();
        drive_inputs();
        program.run_early();
        wiring.own.bus.drive(program, (program.value(wiring.own.drive) & ~dominant) | forced);
        program.run_late();
    }

    void begin() {
        open = moved = none();
        found.assign(runs->size(), -1);
        at.assign(LANES, 0);
        shown.assign(LANES, OTHER_FRAME);
        shown_other.assign(LANES, -1);
        for (int lane = 0; lane < static_cast<int>(runs->size()); lane++) {
            const Run &run = (*runs)[lane];
            put(open, lane, !run.rows.empty());
            queues[lane].clear();
            for (std::size_t held = 0; held < wiring.registers.size(); held++)
                put(program.signal(wiring.registers[held].signal), lane, run.start[held]);
        }
        moved = open;
    }

    // A lane has come to another row.
    void show(int lane) {
        const Run &run = (*runs)[lane];
        const Row &row = run.rows[at[lane]];
        put(reset, lane, row.reset);
        put(integrating, lane, row.integrating);
        put(enable, lane, row.enable);
        put(dominant, lane, row.action == Action::DOMINANT);
        put(forced, lane, row.action == Action::FORCED);
        put(asks, lane, row.request >= 0);
        put(low, lane, row.request >= 0 && row.request % 2);
        put(high, lane, row.request >= 2);
        if (row.other != shown_other[lane])
            for (std::size_t signal = 0; signal < wiring.others.size(); signal++)
                put(program.signal(wiring.others[signal]), lane, (*run.others)[row.other][signal]);
        shown_other[lane] = row.other;
        show_frame(run, row, lane);
    }

    void show_frame(const Run &run, const Row &row, int lane) {
        Queue &queue = queues[lane];
        if (run.is_queued) {
            if (row.reset) queue.clear();
            if (row.offer >= 0) queue.offer(run.frames[row.offer]);
            if (row.reset || row.offer >= 0 || shown[lane] == OTHER_FRAME) wiring.own.show(program, lane, queue);
            shown[lane] = -1;
        } else if (row.frame != shown[lane]) {
            queue.clear();
            if (row.frame >= 0) queue.offer(run.frames[row.frame]);
            wiring.own.show(program, lane, queue);
            shown[lane] = row.frame;
        }
    }

    void drive_inputs() {
        const Node &own = wiring.own;
        const std::pair<const Input *, const Lanes *> inputs[] = {
            {&own.reset, &reset},  {&own.integrating, &integrating}, {&own.enable, &enable},
            {&own.request, &asks}, {&own.amount[0], &low},           {&own.amount[1], &high}};
        for (const auto &[input, value] : inputs) input->drive(program, *value);
    }

    // The lanes in which outputs differ; those that violate an assumption are closed.
    Lanes differing() {
        Lanes differ = none();
        for (const Literal part : wiring.same) differ |= ~program.value(part);
        for (const Literal given : wiring.given) open &= program.value(given);
        return differ & open & program.value(wiring.enable) & ~reset;
    }

    // The lanes that go to their next row.
    Lanes moving() const { return wiring.own.enable.is_free() ? open : open & (program.value(wiring.enable) | reset); }

    void clock() {
        each(wiring.own.has_sent(program) & open, [&](int lane) {
            if (!(*runs)[lane].is_queued) return;
            queues[lane].take_sent(wiring.own.frame_of(program, lane));
            shown[lane] = OTHER_FRAME;
        });
        const Lanes moves = moving();
        each(moves, [&](int lane) { put(open, lane, ++at[lane] < static_cast<int>((*runs)[lane].rows.size())); });
        moved = moves & open;
        wiring.take(program, wiring.registers, taken);
    }

    static constexpr int OTHER_FRAME = -2;

    Wiring wiring;
    Program program;
    std::vector<Queue> queues;
    const std::vector<Run> *runs = nullptr;
    std::vector<int> at, shown, shown_other, found;  // of each lane: its row, and which frame and others it is shown
    Lanes open = none(), moved = none();
    Lanes reset = none(), integrating = none(), enable = none(), dominant = none(), forced = none();
    Lanes asks = none(), low = none(), high = none();
    std::vector<Lanes> taken;
    std::int64_t played = 0;
};

}  // namespace play
