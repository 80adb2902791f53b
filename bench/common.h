// What the C++ programs of this folder have in common: edges, the head of a grid, and the four kinds of job.
#pragma once
#include <algorithm>
#include <cstdint>
#include <cstdio>
#include <cstdlib>
#include <cstring>
#include <fcntl.h>
#include <string>
#include <sys/stat.h>
#include <time.h>
#include <unistd.h>
#include <vector>

struct Edge {
    uint32_t from, to, weight;
};

static const uint64_t TOP = UINT64_MAX;
static const size_t MOST_EDGES = 1 << 24;

[[noreturn]] static void fail(const char *text) {
    fprintf(stderr, "bench: %s\n", text);
    exit(1);
}

// Runs from when it is made.
struct Watch {
    double wall = seconds(CLOCK_MONOTONIC), processor = seconds(CLOCK_PROCESS_CPUTIME_ID);

    static double seconds(clockid_t clock) {
        timespec time;
        clock_gettime(clock, &time);
        return time.tv_sec + time.tv_nsec / 1e9;
    }
};

static uint32_t number_at(const unsigned char *bytes) {
    return bytes[0] | uint32_t(bytes[1]) << 8 | uint32_t(bytes[2]) << 16 | uint32_t(bytes[3]) << 24;
}

static void read_at(int file, size_t from, void *into, size_t count) {
    if (pread(file, into, count, from) != ssize_t(count)) fail("read failed");
}

// A grid's head and index, read from its file with the refusals of a grid that need no edge.
struct Grid {
    int file;
    uint32_t n, parts, width;
    std::vector<uint64_t> counts;
    size_t edges_at, edges = 0;

    explicit Grid(const char *name) : file(open(name, O_RDONLY)) {
        struct stat state;
        unsigned char head[16];
        if (file < 0 || fstat(file, &state)) fail("no file");
        read_at(file, 0, head, 16);
        n = number_at(head + 8);
        parts = number_at(head + 12);
        if (memcmp(head, "GGRID001", 8)) fail("bad magic");
        if (n < 1 || n > 1 << 20 || parts < 1 || parts > 64 || parts > n) fail("bad shape");
        width = (n + parts - 1) / parts;
        counts.resize(size_t(parts) * parts);
        edges_at = 16 + 8 * counts.size();
        read_at(file, 16, counts.data(), 8 * counts.size());
        for (uint64_t count : counts) {
            if (count > MOST_EDGES - edges) fail("too many edges");
            edges += count;
        }
        if (size_t(state.st_size) != edges_at + 12 * edges) fail("bad size");
    }
    ~Grid() { close(file); }
};

// One job: the values of the vertices, and room for those after the next round.
struct Job {
    std::string kind;
    std::vector<uint64_t> values, sums, shares;
    std::vector<uint32_t> degrees;

    Job(const std::string &kind, uint32_t n) : kind(kind), values(n, TOP), sums(n), shares(n), degrees(n) {
        if (kind == "wcc") for (uint32_t v = 0; v < n; v++) values[v] = v;
        else if (is_rank()) std::fill(values.begin(), values.end(), 1000000000);
        else values[0] = 0;
    }
    bool is_rank() const { return kind == "rank"; }

    // What each vertex carries into a round, and what it gives over an edge where that is the same for all of them.
    void begin_round() {
        if (!is_rank()) {
            sums = values;
            return;
        }
        std::fill(sums.begin(), sums.end(), 150000000);
        for (size_t v = 0; v < values.size(); v++) shares[v] = degrees[v] == 0 ? 0 : 85 * values[v] / (100 * uint64_t(degrees[v]));
    }
    void pass(const Edge *edges, size_t count) {
        const Edge *end = edges + count;
        const uint64_t *old = values.data(), *share = shares.data();
        uint64_t *sum = sums.data();
        if (kind == "bfs") {
            for (const Edge *e = edges; e < end; e++) {
                uint64_t gift = old[e->from] == TOP ? TOP : old[e->from] + 1;
                sum[e->to] = std::min(sum[e->to], gift);
            }
        } else if (kind == "sssp") {
            for (const Edge *e = edges; e < end; e++) {
                uint64_t gift = old[e->from] + e->weight;
                if (gift < old[e->from]) gift = TOP;
                sum[e->to] = std::min(sum[e->to], gift);
            }
        } else if (kind == "wcc") {
            for (const Edge *e = edges; e < end; e++) {
                sum[e->to] = std::min(sum[e->to], old[e->from]);
                sum[e->from] = std::min(sum[e->from], old[e->to]);
            }
        } else {
            const uint64_t cap = uint64_t(1) << 57;
            for (const Edge *e = edges; e < end; e++) sum[e->to] = std::min(sum[e->to] + share[e->from], cap);
        }
    }
    // From here on the sums are the values before the round.
    void end_round() { values.swap(sums); }

    // The seconds of the wall's clock and of the processor's, how many edges were passed, and a sum of the values, so that no
    // compiler leaves the rounds out.
    void print(const Watch &start, size_t edges) const {
        Watch end;
        uint64_t check = 0;
        for (uint64_t value : values) check += value;
        printf("%.6f %.6f %zu %llu\n", end.wall - start.wall, end.processor - start.processor, edges, (unsigned long long)check);
    }
    // The lines of a report: `VERTEX VALUE`, or `VERTEX -` for a vertex that wasn't reached.
    void write(const char *name) const {
        FILE *out = fopen(name, "wb");
        if (!out) fail("no file");
        for (size_t v = 0; v < values.size(); v++) {
            if (values[v] == TOP) fprintf(out, "%zu -\n", v);
            else fprintf(out, "%zu %llu\n", v, (unsigned long long)values[v]);
        }
        if (fclose(out)) fail("write failed");
    }
};
