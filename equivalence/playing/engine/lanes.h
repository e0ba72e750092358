// Lanes: a bit of each of 512 runs that are simulated at once, as a vector of the compiler, and random ones.
#pragma once

#include <cstdint>

namespace play {

constexpr int LANES = 512;
constexpr int WORDS = LANES / 64;

typedef std::uint64_t Lanes __attribute__((vector_size(LANES / 8)));

inline Lanes none() {
    return Lanes{};
}
inline Lanes all() {
    return ~Lanes{};
}
inline Lanes every(bool value) {
    return value ? all() : none();
}
inline Lanes choose(Lanes test, Lanes a, Lanes b) {
    return (test & a) | (~test & b);
}
inline bool has(const Lanes &lanes, int lane) {
    return lanes[lane / 64] >> lane % 64 & 1;
}

inline void put(Lanes &lanes, int lane, bool value) {
    const std::uint64_t bit = std::uint64_t{1} << lane % 64;
    lanes[lane / 64] = value ? lanes[lane / 64] | bit : lanes[lane / 64] & ~bit;
}

inline bool any(const Lanes &lanes) {
    std::uint64_t made = 0;
    for (int word = 0; word < WORDS; word++) made |= lanes[word];
    return made != 0;
}

inline int count(const Lanes &lanes) {
    int made = 0;
    for (int word = 0; word < WORDS; word++) made += __builtin_popcountll(lanes[word]);
    return made;
}

// Calls with the number of each lane that is 1.
template <typename Call>
void each(const Lanes &lanes, Call call) {
    for (int word = 0; word < WORDS; word++)
        for (std::uint64_t left = lanes[word]; left; left &= left - 1) call(word * 64 + __builtin_ctzll(left));
}

// SplitMix64: random numbers for one lane at a time, and the seeds of Random.
class Dice {
public:
    explicit Dice(std::uint64_t seed) : state(seed) {}

    std::uint64_t next() {
        std::uint64_t mixed = state += 0x9e3779b97f4a7c15;
        mixed = (mixed ^ mixed >> 30) * 0xbf58476d1ce4e5b9;
        mixed = (mixed ^ mixed >> 27) * 0x94d049bb133111eb;
        return mixed ^ mixed >> 31;
    }
    unsigned below(unsigned limit) { return static_cast<unsigned>((next() >> 32) * limit >> 32); }
    bool one_in(unsigned limit) { return below(limit) == 0; }

private:
    std::uint64_t state;
};

// xoshiro256+: a random bit for each lane.
class Random {
public:
    explicit Random(std::uint64_t seed) {
        Dice dice(seed);
        for (Lanes &part : state)
            for (int word = 0; word < WORDS; word++) part[word] = dice.next();
    }

    Lanes half() {
        Lanes made = state[0] + state[3];
        const Lanes shifted = state[1] << 17;
        state[2] ^= state[0];
        state[3] ^= state[1];
        state[1] ^= state[2];
        state[0] ^= state[3];
        state[2] ^= shifted;
        state[3] = state[3] << 45 | state[3] >> 19;
        return made ^ made >> 32;  // its lowest bits alone are weak
    }

    // 1 with the probability 2 to the power of -count.
    Lanes rare(int count) {
        Lanes made = half();
        while (--count > 0) made &= half();
        return made;
    }

private:
    Lanes state[4];
};

}  // namespace play
