// What every engine answers. A fault is its number in document 01's table; 0: accepted.
#pragma once

#include "grant.hpp"

#include <memory>
#include <vector>

// The calls of the grants file, for the engines that have them.
class Files {
public:
    virtual ~Files() = default;
    // The file of the doors; returns its length. The bytes have room for the longest file.
    virtual size_t write(Span doors, uint8_t *bytes) = 0;
    // Replaces all grants by the file's.
    virtual unsigned load(const uint8_t *file, size_t length) = 0;
    // The verdict on one block of a file.
    virtual unsigned judge(const uint8_t *file, size_t length, size_t block) = 0;
};

class Engine {
public:
    virtual ~Engine() = default;
    virtual const char *name() const = 0;
    // Begins anew, with room for so many grants.
    virtual void start(size_t capacity) = 0;
    virtual unsigned grant(const Grant &grant) = 0;
    virtual unsigned revoke(uint16_t number) = 0;
    // Whether a grant decides at the point, and which.
    virtual bool decide(Point point, Grant &deciding) = 0;
    // The numbers of the grants that overlap the box, ascending; returns how many. There is room for MOST_GRANTS.
    virtual size_t list(const Box &box, uint16_t *numbers) = 0;
    virtual Files *files() { return nullptr; }
};

using Engines = std::vector<std::unique_ptr<Engine>>;

// Those that are always there, by their places, and the archive that the library is held against; behind them, those whose headers were found.
enum { LIBRARY, SCAN, SCAN_SIMD, PLAIN_TREE, BEFORE_LIBRARY };
Engines make_engines();

std::unique_ptr<Engine> make_library();
std::unique_ptr<Engine> make_before();
std::unique_ptr<Engine> make_scan();
std::unique_ptr<Engine> make_scan_simd();
std::unique_ptr<Engine> make_plain_tree();
std::unique_ptr<Engine> make_sqlite_rtree();
std::unique_ptr<Engine> make_boost_rtree();
