// The benchmark: the library and other ways to do its work, on the same loads. docs/BENCHMARK.md describes it.
// Tables go to the output, progress to the error output.
#include "compare.hpp"
#include "fail.hpp"
#include "loads.hpp"
#include "openings.hpp"
#include "rounds.hpp"
#include "table.hpp"
#include "tasks.hpp"

namespace {

struct Options {
    bool quick = false;
    uint64_t seed = 1;
    size_t size = 0; // 0: all sizes
};

[[noreturn]] void show_usage()
{
    fprintf(stderr, "options: [--quick] [--seed N] [--n GRANTS], 1 to %zu grants\n", MOST_GRANTS);
    exit(2);
}

uint64_t number_in(const char *text)
{
    char *end;
    uint64_t number = text == nullptr ? 0 : strtoull(text, &end, 10);
    if (text == nullptr || end == text || *end != 0)
        show_usage();
    return number;
}

size_t size_in(const char *text)
{
    uint64_t size = number_in(text);
    if (size == 0 || size > MOST_GRANTS)
        show_usage();
    return size;
}

Options read_options(char **arguments)
{
    Options options;
    while (*++arguments != nullptr) {
        std::string argument = *arguments;
        if (argument == "--quick")
            options.quick = true;
        else if (argument == "--seed")
            options.seed = number_in(*++arguments);
        else if (argument == "--n")
            options.size = size_in(*++arguments);
        else
            show_usage();
    }
    return options;
}

// Compares, times and compares again.
void run_load(Engines &engines, const Load &load, const Effort &effort, std::vector<Row> &rows)
{
    fill(engines, load);
    compare(engines, load, "at the start");
    compare_changes(engines, load);
    for (const Task &task : make_tasks(load)) {
        fprintf(stderr, "%zu grants, %s, %s\n", load.grants.size(), task.load.c_str(), task.what.c_str());
        rows.push_back({task.load, task.what, time_task(engines, task, effort)});
    }
    if (!load.swaps.empty())
        compare(engines, load, "after timing");
}

void run_size(Engines &engines, size_t size, uint64_t seed, const Effort &effort)
{
    std::vector<Row> rows;
    for (const Load &load : make_loads(size, seed))
        run_load(engines, load, effort, rows);
    printf("\n### %s grants\n", grouped(size).c_str());
    print_table(engines, rows, PLAIN_TREE);
    print_table(engines, rows, SCAN);
#ifdef WITH_BEFORE
    print_table(engines, rows, BEFORE_LIBRARY);
#endif
    fflush(stdout);
}

} // namespace

int main(int, char **arguments)
{
    const Options options = read_options(arguments);
    const Effort effort = options.quick ? Effort{7, 0.3e6} : Effort{31, 1e6};
    std::vector<size_t> sizes = options.quick ? std::vector<size_t>{2048} : std::vector<size_t>{128, 512, 2048};
    if (options.size != 0)
        sizes = {options.size};
    printf("Seed %llu, medians of %zu rounds.\n", static_cast<unsigned long long>(options.seed), effort.rounds);
    Engines engines = make_engines();
    for (size_t size : sizes)
        run_size(engines, size, options.seed, effort);
    run_openings(options.seed, effort);
}
