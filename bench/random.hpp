// Numbers from a seed, the same everywhere (splitmix64).
#pragma once

#include <cstdint>
#include <utility>
#include <vector>

class Random {
public:
    explicit Random(uint64_t seed) : state(seed) {}

    uint32_t below(uint32_t bound) { return static_cast<uint32_t>((next() >> 32) * bound >> 32); }

    // Both ends can come.
    uint32_t between(uint32_t from, uint32_t to) { return from + below(to - from + 1); }

    bool percent(uint32_t chance) { return below(100) < chance; }

    template <class Value> const Value &one_of(const std::vector<Value> &values)
    {
        return values[below(static_cast<uint32_t>(values.size()))];
    }

    template <class Value> void shuffle(std::vector<Value> &values)
    {
        for (size_t i = values.size(); i > 1; i--)
            std::swap(values[i - 1], values[below(static_cast<uint32_t>(i))]);
    }

private:
    uint64_t next()
    {
        uint64_t mixed = state += 0x9E3779B97F4A7C15;
        mixed = (mixed ^ mixed >> 30) * 0xBF58476D1CE4E5B9;
        mixed = (mixed ^ mixed >> 27) * 0x94D049BB133111EB;
        return mixed ^ mixed >> 31;
    }

    uint64_t state;
};
