#include "rounds.hpp"

#include <algorithm>

#include <time.h>

namespace {

// A work and how it fares; an empty one takes no part.
struct Runner {
    const Work &work;
    size_t batch = 1;
    std::vector<double> times{};
};

// Processor time of this thread: another process on the core costs cache, but its own time doesn't count.
double processor_nanoseconds()
{
    timespec now;
    clock_gettime(CLOCK_THREAD_CPUTIME_ID, &now);
    return static_cast<double>(now.tv_sec) * 1e9 + static_cast<double>(now.tv_nsec);
}

// Nanoseconds for one operation, over a batch.
double take_turn(const Runner &runner)
{
    double before = processor_nanoseconds();
    runner.work(runner.batch);
    return (processor_nanoseconds() - before) / static_cast<double>(runner.batch);
}

// Doubles the batch until it is long enough; this warms the runner up, too.
void find_batch(Runner &runner, const Effort &effort)
{
    while (take_turn(runner) * static_cast<double>(runner.batch) < effort.turn_nanoseconds)
        runner.batch *= 2;
}

double median(std::vector<double> values)
{
    auto middle = values.begin() + static_cast<std::ptrdiff_t>(values.size() / 2);
    std::nth_element(values.begin(), middle, values.end());
    return *middle;
}

// An engine on its way through a task's cycle.
struct Walk {
    Engine &engine;
    size_t place = 0;
};

void step(Walk &walk, const Task &task)
{
    task.operate(walk.engine, walk.place);
    if (++walk.place == task.cycle)
        walk.place = 0;
}

Work work_of(Walk &walk, const Task &task)
{
    if (task.files && walk.engine.files() == nullptr)
        return {};
    return [&walk, &task](size_t count) {
        for (size_t i = 0; i < count; i++)
            step(walk, task);
    };
}

} // namespace

std::vector<double> time_in_turns(const std::vector<Work> &works, const Effort &effort)
{
    std::vector<Runner> runners;
    for (const Work &work : works)
        runners.push_back({work});
    for (Runner &runner : runners)
        if (runner.work)
            find_batch(runner, effort);
    for (size_t turn = 0; turn < effort.rounds * runners.size(); turn++) {
        Runner &runner = runners[(turn + turn / runners.size()) % runners.size()];
        if (runner.work)
            runner.times.push_back(take_turn(runner));
    }
    std::vector<double> results;
    for (const Runner &runner : runners)
        results.push_back(runner.work ? median(runner.times) : 0);
    return results;
}

std::vector<double> time_task(Engines &engines, const Task &task, const Effort &effort)
{
    std::vector<Walk> walks;
    for (auto &engine : engines)
        walks.push_back({*engine});
    std::vector<Work> works;
    for (Walk &walk : walks)
        works.push_back(work_of(walk, task));
    std::vector<double> results = time_in_turns(works, effort);
    for (Walk &walk : walks)
        while (task.changes && walk.place != 0)
            step(walk, task);
    return results;
}
