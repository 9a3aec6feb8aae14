#include "engine.hpp"

Engines make_engines()
{
    Engines engines;
    engines.push_back(make_library());
    engines.push_back(make_scan());
    engines.push_back(make_scan_simd());
    engines.push_back(make_plain_tree());
#ifdef WITH_BEFORE
    engines.push_back(make_before());
#endif
#ifdef WITH_SQLITE_RTREE
    engines.push_back(make_sqlite_rtree());
#endif
#ifdef WITH_BOOST_RTREE
    engines.push_back(make_boost_rtree());
#endif
    return engines;
}
