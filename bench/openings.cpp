#include "openings.hpp"

#include "fail.hpp"
#include "random.hpp"
#include "table.hpp"

#include "lg.h"

#include <algorithm>
#include <cstring>

namespace {

constexpr size_t ENTRY_BYTES = 8, MOST_ENTRIES = 4096;
constexpr uint32_t DOORS = 4096, WEEK = 672; // a week in quarters

using Bytes = std::vector<uint8_t>;
using Entries = std::vector<uint64_t>; // the bytes of each as one number: door, quarter, staff

uint16_t quarter_of(uint64_t entry)
{
    return static_cast<uint16_t>(entry >> 32);
}

bool is_earlier(uint64_t a, uint64_t b)
{
    return quarter_of(a) < quarter_of(b);
}

// High byte first, on a processor that has the low one first.
uint64_t get(const uint8_t *bytes)
{
    uint64_t entry;
    memcpy(&entry, bytes, sizeof entry);
    return __builtin_bswap64(entry);
}

Entries entries_of(const Bytes &record)
{
    Entries entries(record.size() / ENTRY_BYTES);
    for (size_t i = 0; i < entries.size(); i++)
        entries[i] = get(record.data() + ENTRY_BYTES * i);
    return entries;
}

Bytes record_of(const Entries &entries)
{
    Bytes record;
    for (uint64_t entry : entries)
        for (size_t i = ENTRY_BYTES; i-- > 0;)
            record.push_back(static_cast<uint8_t>(entry >> 8 * i));
    return record;
}

bool wrong_length(const Bytes &record)
{
    return record.size() % ENTRY_BYTES != 0 || record.size() > ENTRY_BYTES * MOST_ENTRIES;
}

bool rises(const Entries &entries)
{
    return std::is_sorted(entries.begin(), entries.end(), is_earlier);
}

// How many agree of two sorted records. It doesn't branch on the entries: the processor would guess wrong.
uint64_t count_agreeing(const Entries &door, const Entries &panel)
{
    uint64_t agree = 0;
    for (size_t i = 0, j = 0; i < door.size() && j < panel.size();) {
        const uint64_t a = door[i], b = panel[j];
        agree += a == b;
        i += a <= b;
        j += b <= a;
    }
    return agree;
}

// The answers are words as lg_compare_openings gives them.
uint64_t compare_by_sorting(const Bytes &door_record, const Bytes &panel_record)
{
    if (wrong_length(door_record) || wrong_length(panel_record))
        return 24;
    Entries door = entries_of(door_record), panel = entries_of(panel_record);
    if (!rises(door) || !rises(panel))
        return 25;
    std::sort(door.begin(), door.end());
    std::sort(panel.begin(), panel.end());
    const uint64_t agree = count_agreeing(door, panel);
    return (door.size() - agree) << 48 | (panel.size() - agree) << 32 | agree << 8;
}

uint64_t compare_by_library(const Bytes &door_record, const Bytes &panel_record)
{
    return lg_compare_openings(door_record.data(), door_record.size(), panel_record.data(), panel_record.size());
}

struct Way {
    const char *name;
    uint64_t (*compare)(const Bytes &door_record, const Bytes &panel_record);
};

constexpr Way BY_LIBRARY{"library", compare_by_library}, BY_SORTING{"std::sort", compare_by_sorting};

// What a load's pairs of records are like.
struct Kind {
    const char *name;
    size_t entries;    // in each record
    uint32_t quarters; // over so many
    uint32_t others;   // percent of the panel's entries that are not the door's
    bool equal;        // all entries are one
};

constexpr Kind KINDS[] = {
    {"4,096 of one quarter", MOST_ENTRIES, 1, 50, false},
    {"4,096 of a week", MOST_ENTRIES, WEEK, 2, false},
    {"4,096 equal ones", MOST_ENTRIES, 1, 0, true},
    {"100 of one quarter", 100, 1, 50, false},
};

// Two records, and the answer.
struct Pair {
    Bytes door, panel;
    uint64_t answer;
};

uint64_t opening(Random &random, uint64_t quarter)
{
    const uint64_t door = random.below(DOORS);
    return door << 48 | quarter << 32 | random.below(UINT32_MAX);
}

Entries openings(Random &random, const Kind &kind)
{
    const uint32_t first = random.below(65536 - WEEK);
    if (kind.equal)
        return Entries(kind.entries, opening(random, first));
    Entries entries;
    while (entries.size() < kind.entries)
        entries.push_back(opening(random, first + random.below(kind.quarters)));
    return entries;
}

// Quarters rise; in a quarter the entries are in any order.
Bytes shuffled_record(Random &random, Entries entries)
{
    random.shuffle(entries);
    std::stable_sort(entries.begin(), entries.end(), is_earlier);
    return record_of(entries);
}

Pair pair_of(Random &random, const Kind &kind)
{
    Entries entries = openings(random, kind);
    const Bytes door = shuffled_record(random, entries);
    for (uint64_t &entry : entries)
        if (random.percent(kind.others))
            entry = opening(random, quarter_of(entry));
    const Bytes panel = shuffled_record(random, entries);
    return {door, panel, compare_by_sorting(door, panel)};
}

// So many that their order of entries can't be learnt by heart.
std::vector<Pair> make_pairs(Random &random, const Kind &kind)
{
    std::vector<Pair> pairs;
    while (pairs.size() < 16 * MOST_ENTRIES / kind.entries)
        pairs.push_back(pair_of(random, kind));
    return pairs;
}

void expect(const Way &way, const Bytes &door, const Bytes &panel, uint64_t answer, const char *what)
{
    const uint64_t given = way.compare(door, panel);
    if (given != answer)
        fail(std::string(way.name) + " compares records wrongly: " + what + ", " + std::to_string(given) + " for " + std::to_string(answer));
}

// Either way round.
void compare_refusal(const Bytes &record, const Bytes &other, uint64_t fault, const char *what)
{
    for (const Way &way : {BY_LIBRARY, BY_SORTING}) {
        expect(way, record, other, fault, what);
        expect(way, other, record, fault, what);
    }
}

// Of records as long as they may be, over many quarters.
void compare_refusals(const Pair &pair)
{
    Bytes cut = pair.panel, longer = pair.door;
    cut.pop_back();
    longer.insert(longer.end(), ENTRY_BYTES, 0xFF);
    Entries backward = entries_of(pair.door);
    std::reverse(backward.begin(), backward.end());
    compare_refusal(pair.door, cut, 24, "a part of an entry");
    compare_refusal(pair.panel, longer, 24, "an entry too many");
    compare_refusal(pair.panel, record_of(backward), 25, "falling quarters");
    compare_refusal(cut, record_of(backward), 24, "a part of an entry and falling quarters");
}

// Goes through the pairs by turns; every answer is looked at.
Work work_of(const Way &way, const Kind &kind, const std::vector<Pair> &pairs)
{
    return [&way, &kind, &pairs, place = size_t{0}](size_t count) mutable {
        for (size_t i = 0; i < count; i++) {
            const Pair &pair = pairs[place];
            expect(way, pair.door, pair.panel, pair.answer, kind.name);
            if (++place == pairs.size())
                place = 0;
        }
    };
}

std::string nanoseconds_text(double nanoseconds)
{
    return grouped(static_cast<size_t>(nanoseconds + 0.5));
}

void run_kind(Random &random, const Kind &kind, const Effort &effort)
{
    fprintf(stderr, "records, %s\n", kind.name);
    const std::vector<Pair> pairs = make_pairs(random, kind);
    for (const Pair &pair : pairs) {
        expect(BY_LIBRARY, pair.door, pair.panel, pair.answer, kind.name);
        expect(BY_LIBRARY, pair.panel, pair.door, compare_by_sorting(pair.panel, pair.door), kind.name);
    }
    if (kind.quarters == WEEK)
        compare_refusals(pairs[0]);
    const std::vector<double> times = time_in_turns({work_of(BY_LIBRARY, kind, pairs), work_of(BY_SORTING, kind, pairs)}, effort);
    printf("| %s | %s | %s | %s |\n", kind.name, nanoseconds_text(times[0]).c_str(), nanoseconds_text(times[1]).c_str(),
           ratio_text(times[0], times[1]).c_str());
}

} // namespace

void run_openings(uint64_t seed, const Effort &effort)
{
    Random random(seed);
    printf("\n### Door record against panel record\n\n");
    printf("| load | library, ns | std::sort, ns | library by std::sort |\n|---|--:|--:|--:|\n");
    for (const Kind &kind : KINDS)
        run_kind(random, kind, effort);
}
