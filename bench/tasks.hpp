// What is timed: one row of the table each.
#pragma once

#include "engine.hpp"
#include "loads.hpp"

#include <functional>
#include <string>
#include <vector>

struct Task {
    std::string load, what;
    std::function<void(Engine &, size_t)> operate; // the operation at a place of the cycle
    size_t cycle;         // after so many operations they come again
    bool changes = false; // amid the cycle the grants are others
    bool files = false;   // only for the engines that have them
};

// The tasks on a load, which must outlive them.
std::vector<Task> make_tasks(const Load &load);
