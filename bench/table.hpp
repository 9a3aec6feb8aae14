// The results as tables in markdown.
#pragma once

#include "engine.hpp"

#include <string>
#include <vector>

// One task's nanoseconds, by engine; 0: took no part.
struct Row {
    std::string load, what;
    std::vector<double> nanoseconds;
};

// A whole number, its thousands apart.
std::string grouped(size_t number);

// A time divided by another in three digits or so; a dash for the time 0.
std::string ratio_text(double nanoseconds, double base);

// Each engine's time divided by that of the engine at `base`; the library's nanoseconds beside them.
void print_table(const Engines &engines, const std::vector<Row> &rows, size_t base);
