// The grants file (document 01, "The grants file"; document 02, cards 2 and 3), written and judged plainly: for the engines other than
// the library.
#pragma once

#include "check.hpp"
#include "grant.hpp"

constexpr size_t BLOCK_BYTES = 512;
constexpr size_t MOST_FILE_BYTES = 68 * BLOCK_BYTES;

// Writes the file of the doors and these grants, which ascend by number; returns its length.
size_t write_file(Span doors, const Grant *grants, size_t count, uint8_t *bytes, Check check);

// The fault of a file: 0, or 10 to 13.
unsigned judge_file(const uint8_t *file, size_t length, Check check);

// The fault of one block, judged alone: 0, or 10 to 12.
unsigned judge_block(const uint8_t *file, size_t length, size_t number, Check check);

// How many grants an accepted file has, and the one at an index.
size_t count_of(const uint8_t *file);
Grant record_of(const uint8_t *file, size_t index);
