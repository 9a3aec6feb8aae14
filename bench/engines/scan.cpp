// Today's plain scan: an array of grants, ascending by number, one test after the other. The other engines must answer as it does.
#include "../engine.hpp"
#include "../file.hpp"

#include <algorithm>
#include <vector>

namespace {

class Scan : public Engine, public Files {
public:
    const char *name() const override { return "scan"; }

    void start(size_t capacity) override
    {
        grants.clear();
        grants.reserve(capacity);
        most = capacity;
    }

    unsigned grant(const Grant &grant) override
    {
        auto at = place_of(grant.number);
        if (stands_at(at, grant.number))
            return 5;
        if (grants.size() == most)
            return 6;
        grants.insert(at, grant);
        return 0;
    }

    unsigned revoke(uint16_t number) override
    {
        auto at = place_of(number);
        if (!stands_at(at, number))
            return 7;
        grants.erase(at);
        return 0;
    }

    bool decide(Point point, Grant &deciding) override
    {
        const Box box = box_of(point);
        const Grant *best = nullptr;
        for (const Grant &grant : grants)
            if (overlap(grant.box, box) && (best == nullptr || decides_before(grant, *best)))
                best = &grant;
        if (best != nullptr)
            deciding = *best;
        return best != nullptr;
    }

    size_t list(const Box &box, uint16_t *numbers) override
    {
        size_t count = 0;
        for (const Grant &grant : grants)
            if (overlap(grant.box, box))
                numbers[count++] = grant.number;
        return count;
    }

    Files *files() override { return this; }

    size_t write(Span doors, uint8_t *bytes) override
    {
        Grant touching[MOST_GRANTS];
        size_t count = 0;
        for (const Grant &grant : grants)
            if (overlap(grant.box.doors, doors))
                touching[count++] = grant;
        return write_file(doors, touching, count, bytes, check_by_byte);
    }

    unsigned load(const uint8_t *file, size_t length) override
    {
        if (unsigned fault = judge_file(file, length, check_by_byte))
            return fault;
        if (count_of(file) > most)
            return 6;
        grants.clear();
        for (size_t i = 0; i < count_of(file); i++)
            grants.push_back(record_of(file, i));
        return 0;
    }

    unsigned judge(const uint8_t *file, size_t length, size_t block) override { return judge_block(file, length, block, check_by_byte); }

private:
    using Place = std::vector<Grant>::iterator;

    Place place_of(uint16_t number)
    {
        return std::lower_bound(grants.begin(), grants.end(), number,
                                [](const Grant &grant, uint16_t wanted) { return grant.number < wanted; });
    }

    bool stands_at(Place at, uint16_t number) { return at != grants.end() && at->number == number; }

    std::vector<Grant> grants;
    size_t most = 0;
};

} // namespace

std::unique_ptr<Engine> make_scan()
{
    return std::make_unique<Scan>();
}
