// What the programs of the benchmark share: the board of a day file, its live places, and a clock.
// The files are those of make_board.py, each of whose records is accepted; a file is not checked here.
#pragma once
#include <algorithm>
#include <array>
#include <cstdint>
#include <cstdio>
#include <cstdlib>
#include <ctime>
#include <string>
#include <utility>
#include <vector>

constexpr int YARDS = 32, PERIODS = 48, FAR = 1000;

struct Lane { int from, to, transit; };

struct Day {
    int horizon = 0, origin = 0;
    std::vector<Lane> lanes;
    std::vector<std::array<uint16_t, PERIODS>> capacities;
    std::vector<int> depots;
    std::vector<uint32_t> owed;                    // by depot
    std::vector<std::pair<int, uint32_t>> holds;   // the place of the depot in their order, and the pallets

    int order_of(int yard) const {
        for (size_t d = 0; d < depots.size(); d++)
            if (depots[d] == yard) return d;
        return -1;
    }
    void hold(int yard, uint32_t pallets) {
        holds.emplace_back(order_of(yard), pallets);
        owed[order_of(yard)] += pallets;
    }
    void release(int slip) { owed[holds[slip].first] -= holds[slip].second; }
};

// Performs the record whose mark is at p on the day, and says how many bytes it has.
inline int perform(Day &day, const unsigned char *p) {
    auto wide = [p](int at) { return p[at] * 256 + p[at + 1]; };
    std::string mark(p, p + 2);
    if (mark == "HZ") { day.horizon = p[2]; day.origin = p[3]; return 4; }
    if (mark == "LN") {
        day.lanes.push_back({p[2], p[3], p[4]});
        day.capacities.emplace_back().fill(wide(5));
        return 7;
    }
    if (mark == "DP") { day.depots.push_back(p[2]); day.owed.push_back(0); return 3; }
    if (mark == "SD") { day.capacities[p[2]][p[3]] = wide(4); return 6; }
    if (mark == "HD") { day.hold(p[2], wide(3)); return 5; }
    if (mark == "RL") { day.release(wide(2)); return 4; }
    if (mark == "BK") return 4;
    if (mark == "QT") return 3;
    fprintf(stderr, "no record of the benchmark: %s\n", mark.c_str());
    exit(1);
}

inline Day read_day(FILE *from) {
    std::vector<unsigned char> file(40000);
    size_t size = fread(file.data(), 1, 32768, from);
    Day day;
    for (size_t at = 0; at < size;) at += perform(day, &file[at]);
    return day;
}

// Between which periods the places of a yard are live.
struct Live {
    int horizon;
    std::array<int, YARDS> come, go;   // the distance from the origin, and to the next depot

    explicit Live(const Day &day) : horizon(day.horizon) {
        come.fill(FAR);
        go.fill(FAR);
        come[day.origin] = 0;
        for (int yard : day.depots) go[yard] = 0;
        for (bool changed = true; changed;) {
            changed = false;
            for (auto [from, to, transit] : day.lanes) {
                if (come[from] + transit < come[to]) { come[to] = come[from] + transit; changed = true; }
                if (go[to] + transit < go[from]) { go[from] = go[to] + transit; changed = true; }
            }
        }
    }
    bool at(int yard, int period) const { return come[yard] <= period && period + go[yard] <= horizon; }
};

// The processor time of this process so far, in microseconds.
inline double now() {
    timespec t;
    clock_gettime(CLOCK_PROCESS_CPUTIME_ID, &t);
    return t.tv_sec * 1e6 + t.tv_nsec / 1e3;
}

// How many microseconds a call takes: the least mean of several batches, which take so many seconds together or a little more.
template <class Call> double micros(double seconds, Call call) {
    constexpr int BATCHES = 5;
    double start = now();
    call();
    double one = now() - start, least = one;
    int count = std::max(1.0, seconds * 1e6 / BATCHES / one);
    for (int batch = 0; batch < BATCHES && batch * one < seconds * 1e6; batch++) {
        start = now();
        for (int i = 0; i < count; i++) call();
        least = std::min(least, (now() - start) / count);
    }
    return least;
}

template <class List> void print_list(const char *name, const List &list) {
    printf("%s", name);
    for (auto x : list) printf(" %lld", (long long)x);
    printf("\n");
}
