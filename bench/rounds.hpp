// Times operations: those who do them take turns, round after round, each round beginning with the next one.
#pragma once

#include "engine.hpp"
#include "tasks.hpp"

#include <functional>
#include <vector>

struct Effort {
    size_t rounds;
    double turn_nanoseconds; // a turn takes about so long
};

// Does so many operations; called again, it goes on with those that follow.
using Work = std::function<void(size_t count)>;

// Nanoseconds of processor time for one operation of each, the median over the rounds; 0 for an empty work.
std::vector<double> time_in_turns(const std::vector<Work> &works, const Effort &effort);

// The same of a task's operations, by engine; 0 for an engine that takes no part.
std::vector<double> time_task(Engines &engines, const Task &task, const Effort &effort);
