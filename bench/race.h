// Timing: CPU time, the least of many short rounds, the sides in turn within a round.
#pragma once
#include <algorithm>
#include <cstdio>
#include <functional>
#include <string>
#include <time.h>
#include <vector>

struct Side {
    const char *name;
    std::function<void()> run;
};

inline double cpu()
{
    timespec t;
    clock_gettime(CLOCK_PROCESS_CPUTIME_ID, &t);
    return t.tv_sec + t.tv_nsec * 1e-9;
}

// Prints `time PROBLEM OPERATION SIDE MICROSECONDS` for each side. A call that takes less than 50 microseconds is made several
// times in a round; one that takes more than 40 milliseconds is given a second in all, and three rounds at least, or one where it
// takes more than a second.
inline void race(const std::string &problem, const char *operation, int rounds, std::vector<Side> sides)
{
    std::vector<double> least;
    std::vector<int> calls, turns;
    for (Side &s : sides) {
        double start = cpu();
        s.run();
        double one = std::max(cpu() - start, 1e-8);
        least.push_back(one);
        calls.push_back(one < 50e-6 ? int(50e-6 / one) + 1 : 1);
        turns.push_back(one > 1 ? 1 : one > 0.04 ? std::max(3, std::min(rounds, int(1 / one))) : rounds);
    }
    for (int r = 0; r < rounds; r++)
        for (size_t k = 0; k < sides.size(); k++) {
            if (r >= turns[k]) continue;
            double start = cpu();
            for (int c = 0; c < calls[k]; c++) sides[k].run();
            least[k] = std::min(least[k], (cpu() - start) / calls[k]);
        }
    for (size_t k = 0; k < sides.size(); k++) printf("time %s %s %s %.4f\n", problem.c_str(), operation, sides[k].name, least[k] * 1e6);
    fflush(stdout);
}
