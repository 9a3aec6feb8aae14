// Ends the run with a reason and status 1.
#pragma once

#include <cstdio>
#include <cstdlib>
#include <string>

[[noreturn]] inline void fail(const std::string &why)
{
    fprintf(stderr, "bench: %s\n", why.c_str());
    exit(1);
}
