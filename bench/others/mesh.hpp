// A mesh on standard input, the clock, and the drawing on standard output: shared by the programs beside this file.
//
// Input: n, then 2n - 4 triples; the first triple is the outer triangle. Output: the least time of several runs in
// microseconds, then a place for each vertex, doubles in hexadecimal so that nothing is lost.
#pragma once
#include <algorithm>
#include <array>
#include <chrono>
#include <cstdio>
#include <cstdlib>
#include <ctime>
#include <vector>

struct Mesh {
    int n;
    std::vector<std::array<int, 3>> triangles;
};

inline Mesh read_mesh() {
    Mesh mesh;
    bool read = std::scanf("%d", &mesh.n) == 1 && mesh.n >= 4;
    mesh.triangles.resize(read ? 2 * mesh.n - 4 : 0);
    for (auto &[a, b, c] : mesh.triangles) read = read && std::scanf("%d %d %d", &a, &b, &c) == 3;
    if (!read) {
        std::fprintf(stderr, "no mesh on standard input\n");
        std::exit(1);
    }
    return mesh;
}

// Seconds that this program has been on a processor.
inline double on_processor() {
    timespec time;
    clock_gettime(CLOCK_PROCESS_CPUTIME_ID, &time);
    return time.tv_sec + 1e-9 * time.tv_nsec;
}

// The time of a call, less what other programs took of it: the least of 7 to 50 runs, and no more than 7 after 0.4 seconds.
template <class Call> double least(Call call) {
    using clock = std::chrono::steady_clock;
    double best = 1e300, sum = 0;
    for (int run = 0; run < 7 || (run < 50 && sum < 0.4); run++) {
        double before = on_processor();
        auto start = clock::now();
        call();
        double time = std::chrono::duration<double>(clock::now() - start).count();
        best = std::min({best, time, on_processor() - before});
        sum += time;
    }
    return best * 1e6;
}
