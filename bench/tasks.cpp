#include "tasks.hpp"

#include "compare.hpp"
#include "file.hpp"

#include <algorithm>

namespace {

Task decide_task(const Load &load)
{
    auto decide = [&load](Engine &engine, size_t place) {
        Grant deciding;
        engine.decide(load.points[place], deciding);
    };
    return {load.name, "decide", decide, load.points.size()};
}

Task list_task(const Load &load)
{
    auto list = [&load](Engine &engine, size_t place) {
        uint16_t numbers[MOST_GRANTS];
        engine.list(load.boxes[place], numbers);
    };
    return {load.name, "list", list, load.boxes.size()};
}

Task churn_task(const Load &load)
{
    auto churn = [&load](Engine &engine, size_t place) { make(engine, load.swaps[place]); };
    return {load.name, "revoke and grant", churn, load.swaps.size(), true};
}

Task write_task(const Load &load, const char *what, std::vector<Span> doors)
{
    auto write = [doors](Engine &engine, size_t place) {
        uint8_t bytes[MOST_FILE_BYTES];
        engine.files()->write(doors[place], bytes);
    };
    return {load.name, what, write, doors.size(), false, true};
}

std::vector<uint8_t> file_of_all(std::vector<Grant> grants)
{
    std::sort(grants.begin(), grants.end(), [](const Grant &a, const Grant &b) { return a.number < b.number; });
    std::vector<uint8_t> file(MOST_FILE_BYTES);
    file.resize(write_file(EVERY, grants.data(), grants.size(), file.data(), check_by_byte));
    return file;
}

Task load_task(const Load &load)
{
    auto load_all = [file = file_of_all(load.grants)](Engine &engine, size_t) { engine.files()->load(file.data(), file.size()); };
    return {load.name, "load all", load_all, 1, false, true};
}

// The blocks of records, one after the other.
Task judge_task(const Load &load)
{
    std::vector<uint8_t> file = file_of_all(load.grants);
    const size_t blocks = file.size() / BLOCK_BYTES - 1;
    auto judge = [file = std::move(file)](Engine &engine, size_t place) { engine.files()->judge(file.data(), file.size(), 1 + place); };
    return {load.name, "judge a block", judge, blocks, false, true};
}

} // namespace

std::vector<Task> make_tasks(const Load &load)
{
    std::vector<Task> tasks{decide_task(load), list_task(load)};
    if (!load.swaps.empty())
        tasks.push_back(churn_task(load));
    if (!load.banks.empty()) {
        tasks.push_back(write_task(load, "write a bank", load.banks));
        tasks.push_back(write_task(load, "write all", {EVERY}));
        tasks.push_back(load_task(load));
        tasks.push_back(judge_task(load));
    }
    return tasks;
}
