#include "compare.hpp"

#include "fail.hpp"
#include "file.hpp"

#include <algorithm>

namespace {

using Bytes = std::vector<uint8_t>;

// Where a comparison stands, for the message of a difference.
struct Place {
    const Load &load;
    const char *when;
};

[[noreturn]] void differ(Engine &engine, const Place &place, const std::string &what)
{
    const std::string size = std::to_string(place.load.grants.size()) + " grants";
    fail(std::string(engine.name()) + " doesn't answer as scan: " + place.load.name + ", " + size + ", " + place.when + ", " + what);
}

void compare_decide(Engine &scan, Engine &engine, const Place &place, size_t question)
{
    Grant expected, given;
    bool expects = scan.decide(place.load.points[question], expected), gives = engine.decide(place.load.points[question], given);
    if (expects != gives || (expects && !same(expected, given)))
        differ(engine, place, "decide " + std::to_string(question));
}

void compare_list(Engine &scan, Engine &engine, const Place &place, size_t question)
{
    uint16_t expected[MOST_GRANTS], given[MOST_GRANTS];
    size_t expects = scan.list(place.load.boxes[question], expected), gives = engine.list(place.load.boxes[question], given);
    if (!std::equal(expected, expected + expects, given, given + gives))
        differ(engine, place, "list " + std::to_string(question));
}

Bytes file_of(Engine &engine, Span doors)
{
    Bytes bytes(MOST_FILE_BYTES, 0xA5);
    bytes.resize(engine.files()->write(doors, bytes.data()));
    return bytes;
}

void compare_write(Engine &scan, Engine &engine, const Place &place, Span doors)
{
    if (file_of(scan, doors) != file_of(engine, doors))
        differ(engine, place, "write doors " + std::to_string(doors.from) + " to " + std::to_string(doors.to));
}

void compare_one(Engine &scan, Engine &engine, const Place &place)
{
    for (size_t question = 0; question < place.load.points.size(); question++)
        compare_decide(scan, engine, place, question);
    for (size_t question = 0; question < place.load.boxes.size(); question++)
        compare_list(scan, engine, place, question);
    if (engine.files() == nullptr)
        return;
    compare_write(scan, engine, place, EVERY);
    for (Span bank : place.load.banks)
        compare_write(scan, engine, place, bank);
}

// The grants are as many as there is room for.
void compare_refusals(Engine &engine, const Load &load)
{
    const Place place{load, "at the start"};
    Grant other = load.grants[0];
    auto live = [&](const Grant &grant) { return grant.number == other.number; };
    while (std::any_of(load.grants.begin(), load.grants.end(), live))
        other.number++;
    if (engine.grant(load.grants[0]) != 5)
        differ(engine, place, "a live number granted again");
    if (engine.grant(other) != 6)
        differ(engine, place, "a grant too many");
    if (engine.revoke(other.number) != 7)
        differ(engine, place, "a number revoked that is not live");
}

// The damage is in one block.
void compare_blocks(Engine &engine, const Place &place, const Bytes &file, const Bytes &damaged)
{
    const size_t blocks = file.size() / BLOCK_BYTES, wrong = file.size() / 2 / BLOCK_BYTES;
    for (size_t block = 0; block <= blocks; block++) {
        const unsigned expected = block == blocks ? 10 : 0;
        if (engine.files()->judge(file.data(), file.size(), block) != expected)
            differ(engine, place, "block " + std::to_string(block));
        if (engine.files()->judge(damaged.data(), damaged.size(), block) != (block == wrong ? 12 : expected))
            differ(engine, place, "block " + std::to_string(block) + " of a damaged file");
    }
}

// Into an empty engine, so that a load which does nothing is noticed afterwards.
void compare_load(Engine &engine, const Load &load, const Bytes &file)
{
    const Place place{load, "files"};
    engine.start(load.grants.size());
    Bytes damaged = file;
    damaged[file.size() / 2] ^= 1;
    if (engine.files()->load(damaged.data(), damaged.size()) != 12)
        differ(engine, place, "a damaged file loaded");
    compare_blocks(engine, place, file, damaged);
    if (engine.files()->load(file.data(), file.size()) != 0)
        differ(engine, place, "load");
}

} // namespace

void fill(Engines &engines, const Load &load)
{
    for (auto &engine : engines) {
        engine->start(load.grants.size());
        for (const Grant &grant : load.grants)
            if (unsigned fault = engine->grant(grant))
                differ(*engine, {load, "at the start"}, "a grant refused with " + std::to_string(fault));
    }
}

void make(Engine &engine, const Swap &swap)
{
    if (engine.revoke(swap.revoked) != 0 || engine.grant(swap.granted) != 0)
        fail(std::string(engine.name()) + " refuses a change: number " + std::to_string(swap.granted.number));
}

void compare(Engines &engines, const Load &load, const char *when)
{
    for (auto &engine : engines)
        if (engine != engines[SCAN])
            compare_one(*engines[SCAN], *engine, {load, when});
}

void compare_changes(Engines &engines, const Load &load)
{
    size_t half = load.swaps.size() / 2;
    for (auto &engine : engines) {
        compare_refusals(*engine, load);
        std::for_each(load.swaps.begin(), load.swaps.begin() + half, [&](const Swap &swap) { make(*engine, swap); });
    }
    if (half != 0)
        compare(engines, load, "while churning");
    for (auto &engine : engines)
        std::for_each(load.swaps.begin() + half, load.swaps.end(), [&](const Swap &swap) { make(*engine, swap); });
    if (load.banks.empty())
        return;
    const Bytes file = file_of(*engines[SCAN], EVERY);
    for (auto &engine : engines)
        if (engine->files() != nullptr)
            compare_load(*engine, load, file);
    compare(engines, load, "after load");
}
