// Grants, and what is asked of them (document 01, "The plain book"; document 02, cards 1 to 3).
#pragma once

#include <cstddef>
#include <cstdint>
#include <cstring>

constexpr size_t MOST_GRANTS = 2048;

// A range of staff or doors; both ends belong to it.
struct Span {
    uint16_t from, to;
};

// A range of quarters; `to` is the first that is no longer covered.
struct HalfOpen {
    uint16_t from, to;
};

struct Box {
    Span staff, doors;
    HalfOpen quarters;
};

// In memory as in a record of the file, but for the order of the bytes.
struct Grant {
    uint16_t number;
    uint8_t rank, kind; // kind: 0 bars, 1 opens
    Box box;
};
static_assert(sizeof(Grant) == 16, "no bytes between the fields");

struct Point {
    uint16_t staff, door, quarter;
};

constexpr uint16_t LAST_QUARTER = 65535; // which no grant covers
constexpr Span EVERY{0, 65535};
constexpr HalfOpen ALWAYS{0, LAST_QUARTER};

inline bool overlap(Span a, Span b)
{
    return a.from <= b.to && a.to >= b.from;
}

inline bool overlap(HalfOpen a, HalfOpen b)
{
    return a.from < b.to && b.from < a.to;
}

inline bool overlap(const Box &a, const Box &b)
{
    return overlap(a.staff, b.staff) && overlap(a.doors, b.doors) && overlap(a.quarters, b.quarters);
}

// The point's quarter alone. At the last one it would end at 0: nothing overlaps it.
inline Box box_of(Point point)
{
    return {{point.staff, point.staff}, {point.door, point.door}, {point.quarter, static_cast<uint16_t>(point.quarter + 1)}};
}

// Whether a decides before b: the higher rank, at equal rank the higher number.
inline bool decides_before(const Grant &a, const Grant &b)
{
    return a.rank > b.rank || (a.rank == b.rank && a.number > b.number);
}

// Whether the rank is high enough for the doors: 200 or above for more than 1,000 of them.
inline bool is_senior_enough(const Grant &grant)
{
    return grant.rank >= 200 || grant.box.doors.to - grant.box.doors.from < 1000;
}

inline bool same(const Grant &a, const Grant &b)
{
    return memcmp(&a, &b, sizeof a) == 0;
}
