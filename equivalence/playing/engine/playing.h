// All lanes, clock cycle by clock cycle: both controllers on the same inputs, and their partner on the same bus.
#pragma once

#include <chrono>
#include <cstdint>
#include <functional>
#include <limits>
#include <utility>
#include <vector>

#include "graph.h"
#include "runs.h"
#include "traffic.h"

namespace play {

inline double now_in_seconds() {
    return std::chrono::duration<double>(std::chrono::steady_clock::now().time_since_epoch()).count();
}

// Where outputs differed for the first time: the clock cycle, and a lane.
struct Found {
    std::int64_t cycle = -1;
    int lane = -1;
};

// How far is played if nothing differs. Where a number of cycles ends it, the result depends on the seed alone.
struct Limit {
    std::int64_t cycles = std::numeric_limits<std::int64_t>::max();
    double seconds = std::numeric_limits<double>::infinity();
};

// What is played: which change of the design is chosen (0: none; -1: any, another one in each lane), and the seed.
struct Choice {
    std::uint64_t seed = 1;
    int change = 0;
};

class Playing {
public:
    Playing(const Graph &graph, const Choice &choice)
        : wiring(graph),
          partner(graph, "partner_"),
          partner_registers(registers_of(graph, "partner_registers")),
          counted(graph.list("counts")),
          program(graph, roots(graph), {wiring.bus(), partner.bus.literal >> 1}),
          random(choice.seed),
          dice(choice.seed ^ 0xc0ffee),
          own_queue(wiring.own, choice.seed * 3 + 1),
          partner_queue(partner, choice.seed * 3 + 2),
          totals(counted.size(), 0) {
        if (program.is_late(wiring.own.drive))
            throw std::runtime_error("the level that gates drives depends on the bus");
        own_requests.threes = wiring.given.empty();  // an assumption may forbid them
        own_queue.compete_with(partner_queue);
        partner_queue.compete_with(own_queue);
        wiring.choose_change(program, choice.change, dice);
    }

    // Plays until outputs differ, or the limit is reached.
    void run(const Limit &limit) {
        const double end = now_in_seconds() + limit.seconds;
        while (found.lane < 0 && cycle < limit.cycles && ((cycle & 63) || now_in_seconds() < end)) step();
    }
    // Is called before each clock edge, with the lanes whose state a run has reached, and the clock cycle.
    using Watch = std::function<void(const Program &, const Lanes &, std::int64_t)>;
    void watch(Watch given) { watching = std::move(given); }

    // Plays up to and including the cycle in which outputs differed, and records that lane.
    Run recorded(const Found &given) {
        recording = given.lane;
        while (cycle <= given.cycle) step();
        return record;
    }

    const Found &difference() const { return found; }
    std::int64_t cycles() const { return cycle; }
    std::int64_t bit_times() const { return played; }
    std::int64_t dropped() const { return lost; }
    const std::vector<std::int64_t> &counts() const { return totals; }

private:
    static constexpr int MODES = 11, RESETS = 11;  // once in 2 to the power of this, in bit times
    static constexpr int ATTEMPTS = 8;             // to meet the assumptions
    static constexpr std::size_t UNDEFINED = 32;   // one of this number of undefined values changes in a clock cycle

    Literals roots(const Graph &graph) const {
        Literals made = wiring.roots();
        for (const Register &held : partner_registers) made.insert(made.end(), {2 * held.signal, held.next});
        for (const Literals &more : {partner.outputs(), counted, graph.list("phase"), graph.list("sender"),
                                     graph.list("key"), graph.list("watched")})
            made.insert(made.end(), more.begin(), more.end());
        return made;
    }

    void step() {
        const Lanes begins = fresh;
        modes.renew(random, cycle ? begins & random.rare(MODES) : all());
        const Lanes resets = begin_resets(begins);
        offer_frames(begins);
        choose_inputs(begins);
        program.run_early();
        noise.begin(random, modes, place(), begins);
        finish();
        meet_assumptions();
        const Lanes enabled = program.value(wiring.enable), compared = valid & ~resets & enabled;
        compare(compared);
        count_all(compared);
        if (watching) watching(program, valid & ~resets, cycle);
        if (recording >= 0) take_record(has(resets, recording), has(enabled, recording));
        fresh = enabled | resets;
        end_step();
    }

    Lanes begin_resets(Lanes begins) {
        Lanes resets = random.rare(RESETS), again = ~valid & random.rare(4);
        resets = cycle ? begins & (resets | again) : all();
        own_queue.reset(resets);
        each(resets, [&](int lane) {
            for (const Register &held : wiring.registers) put(program.signal(held.signal), lane, dice.one_in(2));
            if (lane == recording) start_record();
        });
        wiring.own.reset.drive(program, resets);
        wiring.own.integrating.drive(program, random.half());
        Lanes others = random.rare(RESETS);
        again = program.value(partner.off) & random.rare(5);
        others = cycle ? begins & (others | again) : all();
        partner_queue.reset(others);
        partner.reset.drive(program, others);
        partner.integrating.drive(program, random.half());
        valid |= resets;
        return resets;
    }

    void offer_frames(Lanes begins) {
        own_queue.begin(program, random, modes, modes.busy, modes.silent, begins);
        partner_queue.begin(program, random, modes, modes.partner_busy, none(), begins);
    }

    void choose_inputs(Lanes begins) {
        own_requests.begin(program, random, wiring.own, modes.requests, begins);
        partner_requests.begin(program, random, partner, modes.requests, begins);
        wiring.own.enable.drive(program, ~modes.others_kept | modes.quiet | random.half());
        choose_others(begins & (~modes.others_kept | random.rare(6)));
    }

    // The wiring's other inputs in each bit time, and some of what is undefined in the design. What a bit time waits for
    // changes with each clock cycle.
    void choose_others(Lanes renewed) {
        const std::size_t named = wiring.named;
        if (!wiring.given.empty()) keep_others();
        for (std::size_t at = 0; at < wiring.others.size(); at++) {
            if (at == named)
                at += static_cast<std::size_t>(cycle) % UNDEFINED;
            else if (at > named)
                at += UNDEFINED - 1;
            if (at >= wiring.others.size()) return;
            Lanes &held = program.signal(wiring.others[at]);
            held = choose(wiring.pacing[at] ? all() : renewed, random.half(), held);
        }
    }

    // What met the assumptions in the bit time before is tried first if the new values don't.
    void keep_others() {
        before.resize(wiring.named);
        for (std::size_t at = 0; at < before.size(); at++) before[at] = program.signal(wiring.others[at]);
    }

    Place place() const {
        const Lanes low = program.value(wiring.phase[0]), second = program.value(wiring.phase[1]);
        const Lanes third = program.value(wiring.phase[2]), high = program.value(wiring.phase[3]);
        const Lanes off = program.value(wiring.own.off), stuffed = ~high & ~third & second & ~low;
        const Lanes ends = (high | third | (second & low)) & ~off;
        return {program.value(wiring.sender), off, stuffed | (ends & ~high & ~(third & second & low)), ends};
    }

    void finish() {
        const Lanes driven = program.value(wiring.own.drive) & (modes.alone | program.value(partner.drive));
        const Lanes bus = noise.level(driven, modes);
        wiring.own.bus.drive(program, bus ^ noise.own);
        partner.bus.drive(program, bus ^ noise.other);
        program.run_late();
    }

    Lanes violating() const {
        Lanes made = none();
        for (const Literal given : wiring.given) made |= ~program.value(given);
        return made & valid;
    }

    // Other inputs for lanes that violate an assumption; lanes that violate it still are out until their next reset.
    void meet_assumptions() {
        if (wiring.given.empty()) return;
        Lanes which = violating();
        for (int attempt = 0; attempt < ATTEMPTS && any(which); attempt++) {
            calm_inputs(which, attempt);
            program.run_early();
            program.run_late();
            which = violating();
        }
        valid &= ~which;
    }

    void calm_inputs(Lanes which, int attempt) {
        const auto set = [&](const Input &input, Lanes value) {
            if (!input.is_free()) return;
            Lanes &held = program.signal(input.literal >> 1);
            held = choose(which, input.literal & 1 ? ~value : value, held);
        };
        for (const Input *input : {&wiring.own.request, &wiring.own.amount[0], &wiring.own.amount[1]})
            set(*input, none());
        if (attempt > 0) {
            set(wiring.own.bus, attempt % 2 ? all() : none());
            set(wiring.own.waits, none());
            set(wiring.own.enable, all());
        }
        for (std::size_t at = 0; at < wiring.named; at++) {
            Lanes &held = program.signal(wiring.others[at]);
            held = choose(which, attempt < 3 ? before[at] : attempt == 3 ? none() : random.half(), held);
        }
    }

    void compare(Lanes compared) {
        Lanes differ = none();
        for (const Literal part : wiring.same) differ |= ~program.value(part);
        differ &= compared;
        if (found.lane >= 0 || !any(differ)) return;
        found.cycle = cycle;
        // one whose pending frames are those of a queue can become a case
        const Lanes better = differ & ~modes.fickle;
        each(any(better) ? better : differ, [&](int lane) { found.lane = found.lane < 0 ? lane : found.lane; });
    }

    void count_all(Lanes compared) {
        played += count(compared);
        lost += LANES - count(valid);
        if (recording >= 0) return;
        for (std::size_t at = 0; at < counted.size(); at++) totals[at] += count(program.value(counted[at]) & compared);
    }

    void end_step() {
        own_queue.take_sent(program, wiring.own.has_sent(program));
        partner_queue.take_sent(program, partner.has_sent(program));
        wiring.take(program, wiring.registers, taken);
        wiring.take(program, partner_registers, taken);
        cycle++;
    }

    void start_record() {
        record = Run{};
        for (const Register &held : wiring.registers)
            record.start.push_back(has(program.signal(held.signal), recording));
    }

    void take_record(bool resets, bool enabled) {
        if (!resets && !enabled && !wiring.own.enable.is_free()) return;
        const auto value = [&](const Input &input) {
            return input.is_free() && has(program.value(input.literal), recording);
        };
        Row row;
        row.reset = resets;
        row.integrating = resets && value(wiring.own.integrating);
        row.enable = enabled;
        const bool bus = value(wiring.own.bus), driven = has(program.value(wiring.own.drive), recording);
        row.action = bus      ? (driven ? Action::RECESSIVE : Action::FORCED)
                     : driven ? Action::DOMINANT
                              : Action::RECESSIVE;
        row.request = value(wiring.own.request) ? value(wiring.own.amount[0]) + 2 * value(wiring.own.amount[1]) : -1;
        if (value(wiring.own.waits)) row.frame = record.keep(own_queue.of(recording).pending());
        if (!wiring.others.empty()) {
            std::vector<char> other;
            for (const int signal : wiring.others) other.push_back(has(program.signal(signal), recording));
            row.other = record.keep(other);
        }
        record.rows.push_back(row);
    }

    Wiring wiring;
    Node partner;
    std::vector<Register> partner_registers;
    Literals counted;
    Program program;
    Random random;
    Dice dice;
    Modes modes{};
    Noise noise;
    Waiting own_queue, partner_queue;
    Requests own_requests, partner_requests;
    Lanes valid = none(), fresh = all();
    std::vector<Lanes> taken, before;
    std::int64_t cycle = 0, played = 0, lost = 0;
    std::vector<std::int64_t> totals;
    Found found;
    Watch watching;
    int recording = -1;
    Run record;
};

}  // namespace play
