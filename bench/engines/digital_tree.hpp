// An alternating digital tree in a pool of words: document 01's rules ("The tree") in the forms that it names, with the parents of document
// 02's card 6, without a proof. A walk that meets a cause of fault 9 says so by false.
#pragma once

#include "../grant.hpp"

#include <array>
#include <vector>

constexpr unsigned AXES = 7, LEVELS = 112;

// Words of the pool's head, and of a cell.
enum { CAPACITY, ROOT, FREE_HEAD, CELLS_AT };
enum { LEFT, RIGHT, NUMBER, RANK_KIND, STAFF_FROM, STAFF_TO, DOORS_FROM, DOORS_TO, QUARTERS_FROM, QUARTERS_TO, PARENT };
constexpr size_t CELL_WORDS = PARENT + 1;

// The word of a cell that has its coordinate on each axis.
constexpr unsigned COORDINATE[AXES] = {STAFF_FROM, DOORS_FROM, QUARTERS_FROM, STAFF_TO, DOORS_TO, QUARTERS_TO, NUMBER};

// Seven ranges: the region of a cell, or the range of a search.
struct Range {
    uint16_t low, high;
};
using Region = std::array<Range, AXES>;

constexpr Range WHOLE_AXIS{0, 65535};
constexpr Region WHOLE{WHOLE_AXIS, WHOLE_AXIS, WHOLE_AXIS, WHOLE_AXIS, WHOLE_AXIS, WHOLE_AXIS, WHOLE_AXIS};

inline Region lower_half(Region region, unsigned axis)
{
    region[axis].high = static_cast<uint16_t>((region[axis].low + region[axis].high) / 2);
    return region;
}

inline Region upper_half(Region region, unsigned axis)
{
    region[axis].low = static_cast<uint16_t>((region[axis].low + region[axis].high) / 2 + 1);
    return region;
}

inline size_t place_of(unsigned cell)
{
    return CELLS_AT + CELL_WORDS * (cell - 1);
}

// Where a search met a cell: the link to it, and its level.
struct Spot {
    unsigned cell;
    size_t link;
    unsigned level;
};

// A blank link, and the cell that it is in; 0 where it is the root's.
struct Blank {
    size_t link;
    unsigned parent;
};

// One search. `hit` is called with the spot of each cell in the range.
template <class Hit> class Search {
public:
    Search(const uint16_t *pool, const Region &range, Hit hit) : pool(pool), capacity(pool[CAPACITY]), range(range), hit(hit) {}

    bool run() { return pool[ROOT] == 0 || visit(ROOT, 0, 0, WHOLE); }

private:
    // Tests the cell behind a link of `from`, then enters its subtrees.
    bool visit(size_t link, unsigned from, unsigned level, Region region)
    {
        unsigned cell = pool[link];
        if (cell > capacity || met == capacity)
            return false;
        met++;
        size_t at = place_of(cell);
        if (pool[at + PARENT] != from)
            return false;
        if (in_range(pool + at))
            hit(Spot{cell, link, level});
        if (level == LEVELS)
            return pool[at + LEFT] == 0 && pool[at + RIGHT] == 0;
        unsigned axis = level % AXES;
        return (pool[at + LEFT] == 0 || enter(at + LEFT, cell, level + 1, axis, lower_half(region, axis))) &&
               (pool[at + RIGHT] == 0 || enter(at + RIGHT, cell, level + 1, axis, upper_half(region, axis)));
    }

    // Goes on through a link if the region behind it meets the range. Only the axis that was halved can have left it.
    bool enter(size_t link, unsigned from, unsigned level, unsigned axis, Region region)
    {
        return region[axis].low > range[axis].high || region[axis].high < range[axis].low || visit(link, from, level, region);
    }

    bool in_range(const uint16_t *cell) const
    {
        for (unsigned axis = 0; axis < AXES; axis++)
            if (cell[COORDINATE[axis]] < range[axis].low || cell[COORDINATE[axis]] > range[axis].high)
                return false;
        return true;
    }

    const uint16_t *pool;
    unsigned capacity;
    Region range;
    Hit hit;
    unsigned met = 0;
};

class DigitalTree {
public:
    void start(size_t capacity);
    size_t capacity() const { return pool[CAPACITY]; }
    bool full() const { return pool[FREE_HEAD] == 0; }
    const uint16_t *cell(unsigned number) const { return &pool[place_of(number)]; }

    template <class Hit> bool search(const Region &range, Hit hit) const { return Search<Hit>(pool.data(), range, hit).run(); }

    // Down to the blank link where the grant belongs.
    bool way_down(const Grant &grant, Blank &blank) const;
    // Takes the free head for the grant, behind a blank link.
    void insert(const Grant &grant, const Blank &blank);
    // Left, else right, to the terminal cell; `spot` becomes its. `met` counts the cells, the first too.
    bool find_terminal(Spot &spot, unsigned met) const;
    // Frees the cell; the terminal cell takes its place, its parent and its children.
    void remove(const Spot &unwanted, const Spot &terminal);

private:
    std::vector<uint16_t> pool;
};
