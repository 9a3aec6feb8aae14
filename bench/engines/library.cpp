// The proved library, through include/lg.h. With BEFORE, an archive that it is held against, whose functions are named before_lg_*, and
// whose cells may have another number of words.
#ifdef BEFORE
#define lg_start before_lg_start
#define lg_grant before_lg_grant
#define lg_revoke before_lg_revoke
#define lg_list before_lg_list
#define lg_decide before_lg_decide
#define lg_write before_lg_write
#define lg_load before_lg_load
#define lg_block before_lg_block
#define NAME "before"
#define MAKE make_before
#else
#define NAME "library"
#define MAKE make_library
#endif

#ifndef CELL_WORDS
#define CELL_WORDS 11
#endif

#include "../engine.hpp"
#include "../fail.hpp"
#include "../file.hpp"

#include "lg.h"

#include <vector>

namespace {

class Library : public Engine, public Files {
public:
    const char *name() const override { return NAME; }

    void start(size_t capacity) override
    {
        pool.assign(3 + CELL_WORDS * capacity, 0);
        accepted("start", lg_start(pool.data(), pool.size()));
    }

    unsigned grant(const Grant &grant) override
    {
        const Box &box = grant.box;
        return LG_FAULT(lg_grant(pool.data(), pool.size(), grant.number, grant.rank, grant.kind, box.staff.from, box.staff.to,
                                 box.doors.from, box.doors.to, box.quarters.from, box.quarters.to));
    }

    unsigned revoke(uint16_t number) override { return LG_FAULT(lg_revoke(pool.data(), pool.size(), number)); }

    bool decide(Point point, Grant &deciding) override
    {
        uint16_t out[10];
        uint64_t word = accepted("decide", lg_decide(pool.data(), pool.size(), point.staff, point.door, point.quarter, out));
        if (LG_A(word) == 0)
            return false;
        deciding = {out[0], static_cast<uint8_t>(out[1]), static_cast<uint8_t>(out[2]),
                    {{out[3], out[4]}, {out[5], out[6]}, {out[7], out[8]}}};
        return true;
    }

    size_t list(const Box &box, uint16_t *numbers) override
    {
        return LG_A(accepted("list", lg_list(pool.data(), pool.size(), box.staff.from, box.staff.to, box.doors.from, box.doors.to,
                                             box.quarters.from, box.quarters.to, numbers, MOST_GRANTS)));
    }

    Files *files() override { return this; }

    size_t write(Span doors, uint8_t *bytes) override
    {
        return LG_B(accepted("write", lg_write(pool.data(), pool.size(), doors.from, doors.to, bytes, MOST_FILE_BYTES)));
    }

    unsigned load(const uint8_t *file, size_t length) override
    {
        return LG_FAULT(lg_load(pool.data(), pool.size(), file, length));
    }

    unsigned judge(const uint8_t *file, size_t length, size_t block) override { return LG_FAULT(lg_block(file, length, block)); }

private:
    // No load of the benchmark gives cause to refuse these calls.
    static uint64_t accepted(const char *call, uint64_t word)
    {
        if (LG_FAULT(word) != 0)
            fail(std::string(NAME ": ") + call + " refused with " + std::to_string(LG_FAULT(word)));
        return word;
    }

    std::vector<uint16_t> pool;
};

} // namespace

std::unique_ptr<Engine> MAKE()
{
    return std::make_unique<Library>();
}
