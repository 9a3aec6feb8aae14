// Door record against panel record (document 02, card 13): the library beside a plain comparison, on the same bytes.
#pragma once

#include "rounds.hpp"

// Compares the two, times them and prints a table; a wrong answer ends the run.
void run_openings(uint64_t seed, const Effort &effort);
