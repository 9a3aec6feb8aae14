// Every engine must answer as the scan does; the first difference ends the run.
#pragma once

#include "engine.hpp"
#include "loads.hpp"

// Grants the load's grants to every engine, which begins anew.
void fill(Engines &engines, const Load &load);

// Makes one change; every load's are all accepted.
void make(Engine &engine, const Swap &swap);

// Compares the answers to all questions, and the files.
void compare(Engines &engines, const Load &load, const char *when);

// Compares refusals, the answers while the load churns and the files loaded; leaves the load's grants.
void compare_changes(Engines &engines, const Load &load);
