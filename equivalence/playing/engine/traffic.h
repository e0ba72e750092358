// The traffic of all lanes: what waits to be sent at both nodes, resets, and what disturbs the bus.
#pragma once

#include <array>
#include <vector>

#include "frames.h"
#include "graph.h"
#include "lanes.h"

namespace play {

// An input of a node: the signal of the wiring that feeds it, maybe inverted; negative if the wiring ties it.
struct Input {
    static constexpr Literal TIED_TO_1 = -2;

    Literal literal = -1;

    bool is_free() const { return literal >= 0; }
    void drive(Program &program, Lanes value) const {
        if (is_free()) program.signal(literal >> 1) = literal & 1 ? ~value : value;
    }
    void drive(Program &program, int lane, bool value) const {
        if (is_free()) put(program.signal(literal >> 1), lane, value != ((literal & 1) == 1));
    }
};

// The inputs of a node, and the outputs that the traffic depends on.
struct Node {
    Input reset, integrating, enable, bus, request, amount[2], waits;
    std::array<Input, FRAME_BITS> frame;
    Literal drive, off;
    Literals event, sent;  // the frame that was sent has the order of the bits in Frame

    Node(const Graph &graph, const std::string &name)
        : drive(graph.number(name + "drive")), off(graph.number(name + "off")) {
        const std::vector<int> &port = graph.list(name + "port");
        Input *const inputs[] = {&reset, &integrating, &enable, &bus, &request, &amount[0], &amount[1], &waits};
        for (int at = 0; at < 8; at++) inputs[at]->literal = port.at(at);
        for (int at = 0; at < FRAME_BITS; at++) frame[at].literal = port.at(8 + at);
        event = graph.list(name + "event");
        sent = graph.list(name + "frame");
    }

    Literals outputs() const {
        Literals made{drive, off};
        made.insert(made.end(), event.begin(), event.end());
        made.insert(made.end(), sent.begin(), sent.end());
        return made;
    }
    // The lanes in which the event `sent` occurs.
    Lanes has_sent(const Program &program) const {
        return program.value(event[0]) & ~program.value(event[1]) & ~program.value(event[2]) & ~program.value(event[3]);
    }
    Frame frame_of(const Program &program, int lane) const {
        Frame made;
        for (int at = 0; at < FRAME_BITS; at++) made.set_bit(at, has(program.value(sent[at]), lane));
        return made;
    }
    // A frame with the bits that the wiring ties.
    Frame possible(Frame given) const {
        for (int at = 0; at < FRAME_BITS; at++)
            if (!frame[at].is_free()) given.set_bit(at, frame[at].literal == Input::TIED_TO_1);
        return given;
    }
    void show(Program &program, int lane, const Queue &queue) const {
        waits.drive(program, lane, !queue.is_empty());
        if (queue.is_empty()) return;
        const Frame &shown = queue.pending();
        for (int at = 0; at < FRAME_BITS; at++) frame[at].drive(program, lane, shown.bit(at));
    }
};

// What the circuit's state is, for disturbances that depend on it.
struct Place {
    Lanes sender, off, in_frame, ends;  // ends: after the stuffed part, until intermission is over
};

// What a lane does for some 2,000 bit times. Here and below each random value is drawn in a statement of its own: a
// compiler may evaluate the sides of an operator in any order, and a seed has to give the same traffic with each.
struct Modes {
    Lanes quiet, noisy, noisier, ends_noisy, ends_noisier, at_sender, at_receiver;
    Lanes alone, bursts, random_bus, heard_alone, calm_when_off;
    Lanes silent, busy, partner_busy, fickle, requests, others_kept;

    void renew(Random &random, Lanes which) {
        const auto set = [&](Lanes &mode, Lanes value) { mode = choose(which, value, mode); };
        set(quiet, random.half());
        set(noisy, random.rare(3));
        set(noisier, random.rare(5));
        set(ends_noisy, random.rare(2));
        set(ends_noisier, random.rare(3));
        set(at_sender, random.rare(2));
        set(at_receiver, random.rare(2));
        set(alone, random.rare(3));
        set(bursts, random.rare(2));
        set(random_bus, random.rare(4));
        set(heard_alone, random.rare(2));
        set(calm_when_off, ~random.rare(2));
        set(silent, random.rare(3));
        set(busy, random.half());
        set(partner_busy, random.half());
        set(fickle, random.rare(3));
        set(requests, random.half());
        set(others_kept, random.half());
    }
};

// The queues of a node in all lanes.
class Waiting {
public:
    Waiting(const Node &given, std::uint64_t seed) : node(given), queues(LANES), maker(seed) {}

    // Before a bit time: new frames, and those that a fickle host takes back.
    void begin(Program &program, Random &random, const Modes &modes, Lanes busy, Lanes silent, Lanes now) {
        const Lanes taken_back = modes.fickle & random.rare(7) & now;
        each(taken_back, [&](int lane) { queues[lane].clear(); });
        const Lanes soon = busy | random.rare(4), more = random.rare(8);
        const Lanes offered = now & ~silent & ((~waiting & soon) | more);
        each(offered, [&](int lane) { offer(lane); });
        each(offered | taken_back | changed, [&](int lane) {
            node.show(program, lane, queues[lane]);
            put(waiting, lane, !queues[lane].is_empty());
        });
        changed = none();
    }
    void take_sent(const Program &program, Lanes which) {
        each(which, [&](int lane) { queues[lane].take_sent(node.frame_of(program, lane)); });
        changed |= which;
    }
    void reset(Lanes which) {
        each(which, [&](int lane) { queues[lane].clear(); });
        changed |= which;
    }
    const Queue &of(int lane) const { return queues[lane]; }
    void compete_with(const Waiting &other) { rival = &other; }

private:
    void offer(int lane) {
        if (queues[lane].size() >= 3) return;
        const Queue *other = rival ? &rival->of(lane) : nullptr;
        const bool competes = other && !other->is_empty() && turn++ % 2;
        queues[lane].offer(node.possible(competes ? maker.like(other->pending()) : maker.any()));
    }

    const Node &node;
    std::vector<Queue> queues;
    FrameMaker maker;
    const Waiting *rival = nullptr;
    unsigned turn = 0;
    Lanes waiting = none(), changed = all();
};

// Requests of 0 to 2 own overload frames; with `threes` also of 3, which change nothing.
struct Requests {
    bool threes = false;
    Lanes asks = none(), low = none(), high = none();

    void begin(Program &program, Random &random, const Node &node, Lanes wanted, Lanes now) {
        asks = choose(now, wanted & random.rare(4), asks);
        high = choose(now, random.half(), high);
        low = choose(now, random.half() & (threes ? ~high | random.rare(3) : ~high), low);
        node.request.drive(program, asks);
        node.amount[0].drive(program, low);
        node.amount[1].drive(program, high);
    }
};

// The disturbances of the bus in a bit time.
class Noise {
public:
    // What is kept from clock cycle to clock cycle until a bit time begins.
    void begin(Random &random, const Modes &modes, const Place &place, Lanes now) {
        flip = choose(now, flips(random, modes, place), flip);
        const Lanes bursts = modes.bursts & ~modes.quiet;
        for (Lanes *burst : {&dominant, &recessive}) {
            const Lanes goes_on = *burst & ~random.rare(4), begins = random.rare(8);
            *burst = choose(now, (goes_on | begins) & bursts, *burst);
        }
        calm = choose(now, place.off & modes.calm_when_off & ~random.rare(10), calm);
        random_level = choose(now, random.half(), random_level);
        const Lanes local = modes.heard_alone & place.in_frame & random.rare(7);
        own = choose(now, local & ~place.sender, own);
        other = choose(now, local & place.sender, other);
    }
    Lanes level(Lanes driven, const Modes &modes) const {
        const Lanes made = ((driven ^ flip) | recessive) & ~dominant;
        return choose(modes.random_bus, random_level, made | calm);
    }

    Lanes own = none(), other = none();  // flips that one node alone sees

private:
    static Lanes flips(Random &random, const Modes &modes, const Place &place) {
        Lanes made = random.rare(9);
        made |= modes.noisy & random.rare(5);
        made |= modes.noisier & random.rare(3);
        made |= modes.ends_noisy & place.ends & random.rare(5);
        made |= modes.ends_noisier & place.ends & random.rare(3);
        made |= choose(place.sender, modes.at_sender, modes.at_receiver) & place.in_frame & random.rare(5);
        return made & ~modes.quiet;
    }

    Lanes flip = none(), dominant = none(), recessive = none(), calm = none(), random_level = none();
};

}  // namespace play
