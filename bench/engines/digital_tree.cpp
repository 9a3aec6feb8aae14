#include "digital_tree.hpp"

#include <algorithm>

void DigitalTree::start(size_t capacity)
{
    pool.assign(CELLS_AT + CELL_WORDS * capacity, 0);
    pool[CAPACITY] = static_cast<uint16_t>(capacity);
    pool[FREE_HEAD] = 1;
    for (unsigned cell = 1; cell < capacity; cell++)
        pool[place_of(cell) + LEFT] = static_cast<uint16_t>(cell + 1);
}

bool DigitalTree::way_down(const Grant &grant, Blank &blank) const
{
    const Box &box = grant.box;
    const uint16_t point[AXES] = {box.staff.from, box.doors.from, box.quarters.from, box.staff.to,
                                  box.doors.to,   box.quarters.to, grant.number};
    const unsigned most = pool[CAPACITY];
    blank = {ROOT, 0};
    for (unsigned level = 0; pool[blank.link] != 0; level++) {
        unsigned cell = pool[blank.link];
        if (cell > most || level == LEVELS || level == most || pool[place_of(cell) + PARENT] != blank.parent)
            return false;
        unsigned side = point[level % AXES] >> (15 - level / AXES) & 1; // 0: LEFT, 1: RIGHT
        blank = {place_of(cell) + side, cell};
    }
    unsigned free = pool[FREE_HEAD];
    return free <= most && (free == 0 || pool[place_of(free) + LEFT] <= most);
}

void DigitalTree::insert(const Grant &grant, const Blank &blank)
{
    const Box &box = grant.box;
    unsigned cell = pool[FREE_HEAD];
    uint16_t *at = &pool[place_of(cell)];
    pool[FREE_HEAD] = at[LEFT];
    const uint16_t rank_kind = static_cast<uint16_t>(grant.rank * 2 + grant.kind);
    const uint16_t parent = static_cast<uint16_t>(blank.parent);
    const uint16_t words[CELL_WORDS] = {0, 0, grant.number, rank_kind, box.staff.from, box.staff.to,
                                        box.doors.from, box.doors.to, box.quarters.from, box.quarters.to, parent};
    std::copy_n(words, CELL_WORDS, at);
    pool[blank.link] = static_cast<uint16_t>(cell);
}

bool DigitalTree::find_terminal(Spot &spot, unsigned met) const
{
    size_t at = place_of(spot.cell);
    size_t link = pool[at + LEFT] != 0 ? at + LEFT : at + RIGHT;
    if (pool[link] == 0)
        return true;
    unsigned cell = pool[link];
    if (cell > capacity() || spot.level == LEVELS || met == capacity() || pool[place_of(cell) + PARENT] != spot.cell)
        return false;
    spot = {cell, link, spot.level + 1};
    return find_terminal(spot, met + 1);
}

void DigitalTree::remove(const Spot &unwanted, const Spot &terminal)
{
    uint16_t *gone = &pool[place_of(unwanted.cell)];
    pool[terminal.link] = 0;
    if (terminal.cell != unwanted.cell) {
        const uint16_t cell = static_cast<uint16_t>(terminal.cell);
        uint16_t *taking = &pool[place_of(cell)];
        std::copy_n(gone + LEFT, 2, taking + LEFT);
        pool[unwanted.link] = cell;
        taking[PARENT] = gone[PARENT];
        // A link that no walk has met may lead to no cell.
        for (unsigned child : {gone[LEFT], gone[RIGHT]})
            if (child != 0 && child <= capacity())
                pool[place_of(child) + PARENT] = cell;
    }
    std::fill_n(gone, CELL_WORDS, uint16_t{0});
    gone[LEFT] = pool[FREE_HEAD];
    pool[FREE_HEAD] = static_cast<uint16_t>(unwanted.cell);
}
