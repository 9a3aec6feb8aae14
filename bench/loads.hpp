// The loads: grants, and the questions and changes that come upon them. docs/BENCHMARK.md describes each.
#pragma once

#include "grant.hpp"

#include <string>
#include <vector>

// A revocation and the grant that follows it.
struct Swap {
    uint16_t revoked;
    Grant granted;
};

struct Load {
    std::string name;
    std::vector<Grant> grants;
    std::vector<Point> points; // to decide
    std::vector<Box> boxes;    // to list
    std::vector<Swap> swaps;   // after all of them the grants are those of the start; none: the load doesn't churn
    std::vector<Span> banks;   // to write the files of; none: the load has no files
};

// All loads at a size; the same seed gives the same ones.
std::vector<Load> make_loads(size_t size, uint64_t seed);
