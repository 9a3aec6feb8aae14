#include "table.hpp"

#include <cstdio>

namespace {

void print_head(const Engines &engines, size_t base)
{
    std::string names = "| load | operation | library, ns |", rule = "|---|---|--:|";
    for (size_t i = 0; i < engines.size(); i++)
        if (i != base) {
            names += std::string(" ") + engines[i]->name() + " |";
            rule += "--:|";
        }
    printf("%s\n%s\n", names.c_str(), rule.c_str());
}

void print_row(const Row &row, size_t base)
{
    std::string library = grouped(static_cast<size_t>(row.nanoseconds[LIBRARY] + 0.5));
    printf("| %s | %s | %s |", row.load.c_str(), row.what.c_str(), library.c_str());
    for (size_t i = 0; i < row.nanoseconds.size(); i++)
        if (i != base)
            printf(" %s |", ratio_text(row.nanoseconds[i], row.nanoseconds[base]).c_str());
    printf("\n");
}

} // namespace

std::string grouped(size_t number)
{
    std::string text = std::to_string(number);
    for (size_t at = text.size(); at > 3; at -= 3)
        text.insert(at - 3, ",");
    return text;
}

std::string ratio_text(double nanoseconds, double base)
{
    if (nanoseconds == 0)
        return "–";
    double ratio = nanoseconds / base;
    if (ratio >= 100)
        return grouped(static_cast<size_t>(ratio + 0.5));
    char text[16];
    snprintf(text, sizeof text, ratio >= 10 ? "%.1f" : "%.2f", ratio);
    return text;
}

void print_table(const Engines &engines, const std::vector<Row> &rows, size_t base)
{
    printf("\nTimes `%s` (below 1: faster than it):\n\n", engines[base]->name());
    print_head(engines, base);
    for (const Row &row : rows)
        print_row(row, base);
}
