// Boost.Geometry's R-tree: R*, sixteen to a node. Beside it, the grants by number.
#include "../engine.hpp"

#include <algorithm>
#include <utility>
#include <vector>

#define BOOST_ALLOW_DEPRECATED_HEADERS // Boost's own headers include some
#include <boost/geometry.hpp>
#include <boost/geometry/index/rtree.hpp>
#include <boost/iterator/function_output_iterator.hpp>

namespace {

namespace geometry = boost::geometry;
using Corner = geometry::model::point<float, 3, geometry::cs::cartesian>; // values of 16 bits are exact in it
using Solid = geometry::model::box<Corner>;
using Entry = std::pair<Solid, uint16_t>;
using Rtree = geometry::index::rtree<Entry, geometry::index::rstar<16>>;

// Boost's boxes are closed: they end with the last quarter that is covered.
Solid solid_of(const Box &box)
{
    return {Corner(box.staff.from, box.doors.from, box.quarters.from), Corner(box.staff.to, box.doors.to, box.quarters.to - 1)};
}

class BoostRtree : public Engine {
public:
    const char *name() const override { return "boost-rtree"; }

    void start(size_t capacity) override
    {
        tree.clear();
        grants.assign(65536, Grant{});
        most = capacity;
    }

    unsigned grant(const Grant &grant) override
    {
        if (live(grant.number))
            return 5;
        if (tree.size() == most)
            return 6;
        grants[grant.number] = grant;
        tree.insert({solid_of(grant.box), grant.number});
        return 0;
    }

    unsigned revoke(uint16_t number) override
    {
        if (!live(number))
            return 7;
        tree.remove({solid_of(grants[number].box), number});
        grants[number] = Grant{};
        return 0;
    }

    bool decide(Point point, Grant &deciding) override
    {
        const Grant *best = nullptr;
        for_each(Corner(point.staff, point.door, point.quarter), [&](uint16_t number) {
            if (best == nullptr || decides_before(grants[number], *best))
                best = &grants[number];
        });
        if (best != nullptr)
            deciding = *best;
        return best != nullptr;
    }

    size_t list(const Box &box, uint16_t *numbers) override
    {
        size_t count = 0;
        for_each(solid_of(box), [&](uint16_t number) { numbers[count++] = number; });
        std::sort(numbers, numbers + count);
        return count;
    }

private:
    bool live(uint16_t number) const { return grants[number].number != 0; }

    template <class Shape, class Each> void for_each(const Shape &shape, Each each) const
    {
        tree.query(geometry::index::intersects(shape),
                   boost::make_function_output_iterator([&](const Entry &entry) { each(entry.second); }));
    }

    Rtree tree;
    std::vector<Grant> grants; // number 0: not live
    size_t most = 0;
};

} // namespace

std::unique_ptr<Engine> make_boost_rtree()
{
    return std::make_unique<BoostRtree>();
}
