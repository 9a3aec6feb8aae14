// A vectorised scan: an array for each field, ascending by number; the compiler makes the test one of many grants at a time.
#include "../engine.hpp"
#include "../file.hpp"

#include <algorithm>

namespace {

enum Field { NUMBER, RANK_KIND, STAFF_FROM, STAFF_TO, DOORS_FROM, DOORS_TO, QUARTERS_FROM, QUARTERS_TO, FIELDS };

class ScanSimd : public Engine, public Files {
public:
    const char *name() const override { return "scan-simd"; }

    void start(size_t capacity) override
    {
        count = 0;
        most = capacity;
    }

    unsigned grant(const Grant &grant) override
    {
        size_t at = place_of(grant.number);
        if (at < count && columns[NUMBER][at] == grant.number)
            return 5;
        if (count == most)
            return 6;
        for (auto &column : columns)
            memmove(column + at + 1, column + at, (count - at) * sizeof *column);
        put(at, grant);
        count++;
        return 0;
    }

    unsigned revoke(uint16_t number) override
    {
        size_t at = place_of(number);
        if (at == count || columns[NUMBER][at] != number)
            return 7;
        count--;
        for (auto &column : columns)
            memmove(column + at, column + at + 1, (count - at) * sizeof *column);
        return 0;
    }

    bool decide(Point point, Grant &deciding) override
    {
        mark(box_of(point));
        size_t best = count;
        for_each_mark([&](size_t i) {
            if (best == count || columns[RANK_KIND][i] / 2 >= columns[RANK_KIND][best] / 2)
                best = i;
        });
        if (best == count)
            return false;
        deciding = get(best);
        return true;
    }

    size_t list(const Box &box, uint16_t *numbers) override
    {
        mark(box);
        size_t found = 0;
        for_each_mark([&](size_t i) { numbers[found++] = columns[NUMBER][i]; });
        return found;
    }

    Files *files() override { return this; }

    size_t write(Span doors, uint8_t *bytes) override
    {
        Grant touching[MOST_GRANTS];
        size_t found = 0;
        mark({EVERY, doors, ALWAYS});
        for_each_mark([&](size_t i) { touching[found++] = get(i); });
        return write_file(doors, touching, found, bytes, check_by_table);
    }

    unsigned load(const uint8_t *file, size_t length) override
    {
        if (unsigned fault = judge_file(file, length, check_by_table))
            return fault;
        if (count_of(file) > most)
            return 6;
        count = count_of(file);
        for (size_t i = 0; i < count; i++)
            put(i, record_of(file, i));
        return 0;
    }

    unsigned judge(const uint8_t *file, size_t length, size_t block) override { return judge_block(file, length, block, check_by_table); }

private:
    size_t place_of(uint16_t number) const
    {
        return static_cast<size_t>(std::lower_bound(columns[NUMBER], columns[NUMBER] + count, number) - columns[NUMBER]);
    }

    void put(size_t i, const Grant &grant)
    {
        const Box &box = grant.box;
        const uint16_t rank_kind = static_cast<uint16_t>(grant.rank * 2 + grant.kind);
        const uint16_t fields[FIELDS] = {grant.number, rank_kind, box.staff.from, box.staff.to,
                                         box.doors.from, box.doors.to, box.quarters.from, box.quarters.to};
        for (size_t field = 0; field < FIELDS; field++)
            columns[field][i] = fields[field];
    }

    Grant get(size_t i) const
    {
        return {columns[NUMBER][i],
                static_cast<uint8_t>(columns[RANK_KIND][i] / 2),
                static_cast<uint8_t>(columns[RANK_KIND][i] % 2),
                {{columns[STAFF_FROM][i], columns[STAFF_TO][i]},
                 {columns[DOORS_FROM][i], columns[DOORS_TO][i]},
                 {columns[QUARTERS_FROM][i], columns[QUARTERS_TO][i]}}};
    }

    // Marks the grants that overlap the box. No test hangs on another, so that the loop can be vectorised.
    void mark(const Box box)
    {
        for (size_t i = 0; i < count; i++)
            marks[i] = (columns[STAFF_FROM][i] <= box.staff.to) & (columns[STAFF_TO][i] >= box.staff.from) &
                       (columns[DOORS_FROM][i] <= box.doors.to) & (columns[DOORS_TO][i] >= box.doors.from) &
                       (columns[QUARTERS_FROM][i] < box.quarters.to) & (columns[QUARTERS_TO][i] > box.quarters.from);
        memset(marks + count, 0, sizeof(uint64_t));
    }

    // Eight marks at a time: most are 0.
    template <class Each> void for_each_mark(Each each) const
    {
        for (size_t i = 0; i < count; i += sizeof(uint64_t)) {
            uint64_t eight;
            memcpy(&eight, marks + i, sizeof eight);
            for (; eight != 0; eight &= eight - 1)
                each(i + static_cast<size_t>(__builtin_ctzll(eight)) / 8);
        }
    }

    uint16_t columns[FIELDS][MOST_GRANTS];
    uint8_t marks[MOST_GRANTS + sizeof(uint64_t)];
    size_t count = 0, most = 0;
};

} // namespace

std::unique_ptr<Engine> make_scan_simd()
{
    return std::make_unique<ScanSimd>();
}
