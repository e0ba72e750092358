// Frames, their order in arbitration, and the queue of those that wait to be sent.
#pragma once

#include <cstdint>
#include <vector>

#include "lanes.h"

namespace play {

constexpr int FRAME_BITS = 99;  // as the circuit has them: extended, remote, identifier, DLC, data

struct Frame {
    bool extended = false, remote = false;
    std::uint32_t identifier = 0;
    unsigned dlc = 0;
    std::uint64_t data = 0;  // byte k from bit 8k on

    bool bit(int at) const {
        if (at < 2) return at ? remote : extended;
        if (at < 31) return identifier >> (at - 2) & 1;
        return at < 35 ? dlc >> (at - 31) & 1 : data >> (at - 35) & 1;
    }
    void set_bit(int at, bool value) {
        if (at < 2)
            (at ? remote : extended) = value;
        else if (at < 31)
            identifier = (identifier & ~(1u << (at - 2))) | static_cast<std::uint32_t>(value) << (at - 2);
        else if (at < 35)
            dlc = (dlc & ~(1u << (at - 31))) | static_cast<unsigned>(value) << (at - 31);
        else
            data = (data & ~(std::uint64_t{1} << (at - 35))) | static_cast<std::uint64_t>(value) << (at - 35);
    }
    // The arbitration field as a number; the lower one has the higher priority.
    std::uint32_t priority() const {
        if (!extended) return (identifier & 0x7ff) << 21 | static_cast<std::uint32_t>(remote) << 20;
        return (identifier >> 18) << 21 | 3u << 19 | (identifier & 0x3ffff) << 1 | static_cast<std::uint32_t>(remote);
    }
    bool operator==(const Frame &other) const {
        return extended == other.extended && remote == other.remote && identifier == other.identifier &&
               dlc == other.dlc && data == other.data;
    }
};

// The pending frame is the one with the highest priority; of equal ones, the first that was offered.
class Queue {
public:
    void offer(const Frame &frame) { frames.push_back(frame); }
    void clear() { frames.clear(); }
    std::size_t size() const { return frames.size(); }
    bool is_empty() const { return frames.empty(); }

    const Frame &pending() const {
        std::size_t best = 0;
        for (std::size_t at = 1; at < frames.size(); at++)
            if (frames[at].priority() < frames[best].priority()) best = at;
        return frames[best];
    }
    // The first frame with the arbitration field of the frame that was sent leaves.
    void take_sent(const Frame &sent) {
        for (std::size_t at = 0; at < frames.size(); at++)
            if (frames[at].priority() == sent.priority()) {
                frames.erase(frames.begin() + static_cast<std::ptrdiff_t>(at));
                return;
            }
    }

private:
    std::vector<Frame> frames;
};

// Frames for which the tricky cases of arbitration, stuffing and lengths are frequent.
class FrameMaker {
public:
    explicit FrameMaker(std::uint64_t seed) : dice(seed) {}

    Frame any() {
        Frame made;
        made.extended = dice.one_in(2);
        made.remote = dice.one_in(4);
        made.identifier = static_cast<std::uint32_t>(levels()) & (made.extended ? 0x1fffffff : 0x7ff);
        made.dlc = dice.one_in(2) ? dice.below(3) : dice.below(16);
        made.data = levels();
        return made;
    }

    // The same frame, or one that differs in one place; mostly late in arbitration or after it.
    Frame like(const Frame &other) {
        Frame made = other;
        switch (dice.below(6)) {
            case 0: return made;
            case 1: made.remote = !made.remote; break;
            case 2: made.extended = !made.extended; break;
            case 3: change_bit(made, 31 + static_cast<int>(dice.below(68))); break;
            case 4: made.identifier ^= 1u << dice.below(made.extended ? 19 : 3); break;
            default: made.identifier ^= 1u << dice.below(made.extended ? 29 : 11);
        }
        if (!made.extended) made.identifier &= 0x7ff;
        return made;
    }

private:
    static void change_bit(Frame &frame, int at) { frame.set_bit(at, !frame.bit(at)); }

    std::uint64_t levels() {
        const std::uint64_t random = dice.next();
        switch (dice.below(8)) {
            case 0: return dice.next() & dice.next() & random;     // mostly dominant
            case 1: return ~(dice.next() & dice.next() & random);  // mostly recessive
            case 2:
            case 3: return random;
            default: return runs(dice.next() & dice.next() & random);  // runs of equal levels
        }
    }
    // Each 1 begins another run.
    static std::uint64_t runs(std::uint64_t ends) {
        for (int shift = 1; shift < 64; shift *= 2) ends ^= ends << shift;
        return ends;
    }

    Dice dice;
};

}  // namespace play
