// A block's check (document 01, "The grants file"), of its first 510 bytes, for the engines other than the library.
#pragma once

#include <cstddef>
#include <cstdint>

constexpr size_t CHECK_AT = 510;

using Check = uint32_t (*)(const uint8_t *block);

// A remainder for every byte.
uint32_t check_by_byte(const uint8_t *block);

// Products with a table of powers, several to an instruction, and one remainder.
uint32_t check_by_table(const uint8_t *block);
