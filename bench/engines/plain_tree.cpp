// A plain unproved tree of the library's rules: what the same index costs without the proof.
#include "../engine.hpp"
#include "../fail.hpp"
#include "../file.hpp"
#include "digital_tree.hpp"

#include <algorithm>

namespace {

// The quarters of a hit begin below the box's to, and their own to is above its from.
Region range_of(const Box &box)
{
    return {Range{0, box.staff.to},
            {0, box.doors.to},
            {0, static_cast<uint16_t>(box.quarters.to - 1)},
            {box.staff.from, 65535},
            {box.doors.from, 65535},
            {static_cast<uint16_t>(box.quarters.from + 1), 65535},
            WHOLE_AXIS};
}

// The staff and quarter axes are free.
Region range_of(Span doors)
{
    Region range = WHOLE;
    range[1].high = doors.to;
    range[4].low = doors.from;
    return range;
}

Region range_of(uint16_t number)
{
    Region range = WHOLE;
    range[AXES - 1] = {number, number};
    return range;
}

Grant grant_in(const uint16_t *cell)
{
    return {cell[NUMBER],
            static_cast<uint8_t>(cell[RANK_KIND] / 2),
            static_cast<uint8_t>(cell[RANK_KIND] % 2),
            {{cell[STAFF_FROM], cell[STAFF_TO]}, {cell[DOORS_FROM], cell[DOORS_TO]}, {cell[QUARTERS_FROM], cell[QUARTERS_TO]}}};
}

bool decides_before(const uint16_t *cell, const uint16_t *other)
{
    unsigned rank = cell[RANK_KIND] / 2, other_rank = other[RANK_KIND] / 2;
    return rank > other_rank || (rank == other_rank && cell[NUMBER] > other[NUMBER]);
}

class PlainTree : public Engine, public Files {
public:
    const char *name() const override { return "plain-tree"; }

    void start(size_t capacity) override { tree.start(capacity); }

    unsigned grant(const Grant &grant) override
    {
        Spot spot;
        Blank blank;
        bool live;
        if (!find(grant.number, live, spot))
            return 9;
        if (live)
            return 5;
        if (!tree.way_down(grant, blank))
            return 9;
        if (tree.full())
            return 6;
        tree.insert(grant, blank);
        return 0;
    }

    unsigned revoke(uint16_t number) override
    {
        Spot spot;
        bool live;
        if (!find(number, live, spot))
            return 9;
        if (!live)
            return 7;
        Spot terminal = spot;
        if (!tree.find_terminal(terminal, 1))
            return 9;
        tree.remove(spot, terminal);
        return 0;
    }

    bool decide(Point point, Grant &deciding) override
    {
        const uint16_t *best = nullptr;
        if (point.quarter == LAST_QUARTER)
            return false;
        search(range_of(box_of(point)), [&](const Spot &spot) {
            const uint16_t *cell = tree.cell(spot.cell);
            if (best == nullptr || decides_before(cell, best))
                best = cell;
        });
        if (best != nullptr)
            deciding = grant_in(best);
        return best != nullptr;
    }

    size_t list(const Box &box, uint16_t *numbers) override
    {
        size_t count = 0;
        search(range_of(box), [&](const Spot &spot) { numbers[count++] = tree.cell(spot.cell)[NUMBER]; });
        std::sort(numbers, numbers + count);
        return count;
    }

    Files *files() override { return this; }

    size_t write(Span doors, uint8_t *bytes) override
    {
        Grant touching[MOST_GRANTS];
        size_t count = 0;
        search(range_of(doors), [&](const Spot &spot) { touching[count++] = grant_in(tree.cell(spot.cell)); });
        std::sort(touching, touching + count, [](const Grant &a, const Grant &b) { return a.number < b.number; });
        return write_file(doors, touching, count, bytes, check_by_byte);
    }

    unsigned load(const uint8_t *file, size_t length) override
    {
        if (unsigned fault = judge_file(file, length, check_by_byte))
            return fault;
        if (count_of(file) > tree.capacity())
            return 6;
        tree.start(tree.capacity());
        for (size_t i = 0; i < count_of(file); i++) {
            Blank blank;
            Grant grant = record_of(file, i);
            if (!tree.way_down(grant, blank))
                return 9;
            tree.insert(grant, blank);
        }
        return 0;
    }

    unsigned judge(const uint8_t *file, size_t length, size_t block) override { return judge_block(file, length, block, check_by_byte); }

private:
    // Whether the number is live, and where its cell is. The search goes on to its end. False: fault 9.
    bool find(uint16_t number, bool &live, Spot &first) const
    {
        live = false;
        return tree.search(range_of(number), [&](const Spot &spot) {
            if (!live)
                first = spot;
            live = true;
        });
    }

    // No load of the benchmark breaks a link.
    template <class Hit> void search(const Region &range, Hit hit) const
    {
        if (!tree.search(range, hit))
            fail("plain-tree: fault 9");
    }

    DigitalTree tree;
};

} // namespace

std::unique_ptr<Engine> make_plain_tree()
{
    return std::make_unique<PlainTree>();
}
