#include "loads.hpp"

#include "random.hpp"

#include <algorithm>
#include <numeric>

namespace {

constexpr size_t QUESTIONS = 512, FILES = 64;
constexpr uint32_t HOUR = 4, DAY = 96, WEEK = 7 * DAY, YEAR = 365 * DAY; // in quarters

Span span(uint32_t from, uint32_t to)
{
    return {static_cast<uint16_t>(from), static_cast<uint16_t>(to)};
}

HalfOpen quarters(uint32_t from, uint32_t length)
{
    return {static_cast<uint16_t>(from), static_cast<uint16_t>(from + length)};
}

// The same two values as quarters.
HalfOpen half_open(Span ends)
{
    return {ends.from, ends.to};
}

Span anywhere(Random &random, uint32_t most_long)
{
    uint32_t length = random.between(1, most_long);
    uint32_t from = random.below(65537 - length);
    return span(from, from + length - 1);
}

// Up to the last quarter that can be covered.
HalfOpen any_time(Random &random, uint32_t most_long)
{
    uint32_t length = random.between(1, most_long);
    return quarters(random.below(65536 - length), length);
}

Span within(Random &random, Span outer, uint32_t most_long)
{
    uint32_t from = random.between(outer.from, outer.to);
    return span(from, std::min<uint32_t>(outer.to, from + random.below(most_long)));
}

HalfOpen within(Random &random, HalfOpen outer, uint32_t most_long)
{
    uint32_t from = random.between(outer.from, outer.to - 1);
    return quarters(from, std::min<uint32_t>(outer.to - from, 1 + random.below(most_long)));
}

uint16_t one_in(Random &random, Span span)
{
    return static_cast<uint16_t>(random.between(span.from, span.to));
}

uint16_t one_in(Random &random, HalfOpen quarters)
{
    return static_cast<uint16_t>(random.between(quarters.from, quarters.to - 1));
}

Point point_in(Random &random, const Box &box)
{
    return {one_in(random, box.staff), one_in(random, box.doors), one_in(random, box.quarters)};
}

uint8_t byte_below(Random &random, uint32_t bound)
{
    return static_cast<uint8_t>(random.below(bound));
}

uint8_t byte_between(Random &random, uint32_t from, uint32_t to)
{
    return static_cast<uint8_t>(random.between(from, to));
}

// With a rank that is high enough for its doors.
Grant raised(Grant grant)
{
    if (!is_senior_enough(grant))
        grant.rank = static_cast<uint8_t>(200 + grant.rank % 56);
    return grant;
}

// So many of what `one` makes.
template <class One> auto many(size_t count, One one)
{
    std::vector<decltype(one())> made;
    for (size_t i = 0; i < count; i++)
        made.push_back(one());
    return made;
}

// Numbers from all over.
void number_spread(Random &random, std::vector<Grant> &grants)
{
    std::vector<uint16_t> numbers(65535);
    std::iota(numbers.begin(), numbers.end(), uint16_t{1});
    random.shuffle(numbers);
    for (size_t i = 0; i < grants.size(); i++)
        grants[i].number = numbers[i];
}

// Numbers issued one after the other, every second one gone.
void number_rising(Random &random, std::vector<Grant> &grants)
{
    for (size_t i = 0; i < grants.size(); i++)
        grants[i].number = static_cast<uint16_t>(20001 + 2 * i + random.below(2));
}

// Moves the latter half of the grants into swaps: each takes the place of one of the former half, and then it of it again.
void take_swaps(Random &random, Load &load)
{
    size_t half = load.grants.size() / 2;
    std::vector<Grant> successors(load.grants.begin() + half, load.grants.end());
    load.grants.resize(half);
    std::vector<size_t> order(half);
    std::iota(order.begin(), order.end(), size_t{0});
    random.shuffle(order);
    for (size_t i : order)
        load.swaps.push_back({load.grants[i].number, successors[i]});
    random.shuffle(order);
    for (size_t i : order)
        load.swaps.push_back({successors[i].number, load.grants[i]});
}

Load uniform(Random &random, size_t size)
{
    Load load;
    load.name = "uniform";
    auto box = [&] { return Box{anywhere(random, 4096), anywhere(random, 4096), any_time(random, 4096)}; };
    load.grants = many(size, [&] { return raised({0, byte_below(random, 256), byte_below(random, 2), box()}); });
    number_spread(random, load.grants);
    load.points = many(QUESTIONS, [&] {
        return point_in(random, random.percent(50) ? random.one_of(load.grants).box : Box{EVERY, EVERY, ALWAYS});
    });
    load.boxes = many(QUESTIONS, box);
    return load;
}

// Staff and doors of one bank.
struct Bank {
    Span staff, doors;
};

HalfOpen weeks(Random &random)
{
    uint32_t length = random.between(1, 13) * WEEK;
    return quarters(random.below(YEAR - length), length);
}

HalfOpen shift(Random &random)
{
    constexpr uint32_t STARTS[] = {24, 56, 88}; // six, fourteen and twenty-two o'clock
    uint32_t from = random.below(365) * DAY + STARTS[random.below(3)];
    return quarters(from, 8 * HOUR);
}

// A day on which some doors are shut to all staff, or all doors to one of them.
Grant bar(Random &random, const Bank &bank)
{
    uint32_t from = random.below(365) * DAY;
    bool all_staff = random.percent(50);
    Span staff = all_staff ? bank.staff : within(random, bank.staff, 1);
    Span doors = all_staff ? within(random, bank.doors, 4) : bank.doors;
    return {0, byte_between(random, 200, 250), 0, {staff, doors, quarters(from, DAY)}};
}

// Of a hundred: 60 for one shift, 25 for some weeks, 10 for the year, 5 bars.
Grant bank_grant(Random &random, const Bank &bank)
{
    uint32_t which = random.below(100);
    if (which >= 95)
        return bar(random, bank);
    Span staff = within(random, bank.staff, 4), doors = within(random, bank.doors, 40);
    if (which < 60)
        return {0, byte_between(random, 50, 99), 1, {staff, doors, shift(random)}};
    if (which < 85)
        return {0, byte_between(random, 20, 60), 1, {staff, doors, weeks(random)}};
    return {0, byte_between(random, 5, 40), 1, {staff, doors, quarters(0, YEAR)}};
}

// Inside a grant, or its staff and door at some other time.
Point question_near(Random &random, const Grant &grant, uint32_t inside_percent)
{
    Box box = grant.box;
    if (!random.percent(inside_percent))
        box.quarters = quarters(0, YEAR);
    return point_in(random, box);
}

Load one_bank(Random &random, size_t size)
{
    const Bank bank{span(2000, 2999), span(8000, 8399)};
    Load load;
    load.name = "bank";
    load.grants = many(2 * size, [&] { return bank_grant(random, bank); });
    number_rising(random, load.grants);
    take_swaps(random, load);
    load.points = many(QUESTIONS, [&] {
        return random.percent(10) ? point_in(random, {bank.staff, bank.doors, quarters(0, YEAR)})
                                  : question_near(random, random.one_of(load.grants), 67);
    });
    load.boxes = many(QUESTIONS, [&] { // who may pass one door in one hour
        uint32_t hour = random.below(YEAR - HOUR);
        return Box{EVERY, within(random, bank.doors, 1), quarters(hour, HOUR)};
    });
    return load;
}

constexpr uint32_t BANKS = 128, BANK_DOORS = 512;

Bank bank_at(uint32_t place)
{
    Span all = span(place * BANK_DOORS, place * BANK_DOORS + BANK_DOORS - 1);
    return {all, all};
}

// Of a hundred: 85 of one bank, 10 for the doors of two to nine, 5 for all doors.
Grant office_grant(Random &random)
{
    uint32_t place = random.below(BANKS), reach = random.below(100);
    Grant grant = bank_grant(random, bank_at(place));
    if (reach >= 95)
        grant.box.doors = EVERY;
    else if (reach >= 85)
        grant.box.doors.to = bank_at(std::min(place + random.between(1, 8), BANKS - 1)).doors.to;
    return raised(grant);
}

Load head_office(Random &random, size_t size)
{
    Load load;
    load.name = "head office";
    load.grants = many(2 * size, [&] { return office_grant(random); });
    number_spread(random, load.grants);
    take_swaps(random, load);
    load.points = many(QUESTIONS, [&] { return question_near(random, random.one_of(load.grants), 60); });
    load.boxes = many(QUESTIONS, [&] { // a bank's doors over a week
        uint32_t from = random.below(YEAR - WEEK);
        return Box{EVERY, bank_at(random.below(BANKS)).doors, quarters(from, WEEK)};
    });
    load.banks = many(FILES, [&] { return bank_at(random.below(BANKS)).doors; });
    return load;
}

// One of the three ranges becomes a single value, just outside the equal boxes. The to of their quarters is outside them.
Box pinned(Random &random, Box box)
{
    const bool before = random.percent(50);
    const uint32_t which = random.below(3);
    const Span outside = before ? span(0x8000, 0x8000) : span(0x801F, 0x801F);
    if (which == 0)
        box.staff = outside;
    else if (which == 1)
        box.doors = outside;
    else
        box.quarters = quarters(before ? 0x8000 : 0x801E, 1);
    return box;
}

// Against the tree: half the boxes are equal, the others agree with them in the leading twelve bits of each value, so that hardly
// a region is left out before the last levels.
Load clustered(Random &random, size_t size)
{
    Load load;
    load.name = "clustered";
    auto near = [&] { return Span{one_in(random, span(0x8000, 0x800F)), one_in(random, span(0x8010, 0x801F))}; };
    for (size_t i = 0; i < size; i++) {
        const Span equal = span(0x8001, 0x801E);
        Box box = i % 2 != 0 ? Box{equal, equal, half_open(equal)} : Box{near(), near(), half_open(near())};
        load.grants.push_back({static_cast<uint16_t>(i + 1), byte_below(random, 4), byte_below(random, 2), box});
    }
    const Span middle = span(0x800F, 0x800F);
    load.points = many(QUESTIONS, [&] { return point_in(random, pinned(random, {middle, middle, quarters(0x800F, 1)})); });
    load.boxes = many(QUESTIONS, [&] { return pinned(random, {EVERY, EVERY, ALWAYS}); });
    return load;
}

// Nearly all grants overlap every question.
Load all_overlapping(Random &random, size_t size)
{
    Load load;
    load.name = "all overlapping";
    auto wide = [&] { return Span{one_in(random, span(0, 4095)), one_in(random, span(61440, 65535))}; };
    auto box = [&] { return Box{wide(), wide(), half_open(wide())}; };
    load.grants = many(size, [&] { return raised({0, byte_below(random, 256), byte_below(random, 2), box()}); });
    number_spread(random, load.grants);
    const Span middle = span(3000, 62500);
    const HalfOpen middle_time = quarters(3000, 59501);
    load.points = many(QUESTIONS, [&] { return point_in(random, {middle, middle, middle_time}); });
    load.boxes = many(QUESTIONS, [&] {
        return Box{within(random, middle, 500), within(random, middle, 500), within(random, middle_time, 500)};
    });
    return load;
}

} // namespace

std::vector<Load> make_loads(size_t size, uint64_t seed)
{
    Random random(seed);
    return {uniform(random, size), one_bank(random, size), head_office(random, size), clustered(random, size),
            all_overlapping(random, size)};
}
