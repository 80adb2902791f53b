// Plain C++ loops that read a grid chunk by chunk, to measure the built program against. Build with: g++ -O3 -o chunked chunked.cpp
//   chunked info GRID CHUNK                           the same work and lines as `graphm info`
//   chunked calls GRID BYTES                          nothing but lseek and read of BYTES bytes, piece by piece, over all edges
//   chunked rounds GRID CHUNK KIND FEW MANY [VALUES]  seconds of the rounds after the first FEW up to round MANY of bfs, sssp, wcc or
//                                                     rank, and how many edges they passed; VALUES gets the values, as lines of a report
#include "common.h"

struct Pair {
    uint32_t source, count;
};

static Edge edge_at(const unsigned char *bytes) {
    return {number_at(bytes), number_at(bytes + 4), number_at(bytes + 8)};
}

struct Chunk {
    uint32_t block, length;
    size_t first, label, pairs;
};

// As many sources of a table are looked through in the time in which one source is sorted.
static const uint32_t LOOKED_THROUGH = 32;
static const size_t MOST_CHUNKS = 1 << 20;

// The chunks of a grid, and their labels in one list, for which room is taken once: what isn't used isn't resident. The room for a
// chunk's edges and sources is used for each chunk again.
struct Catalogue {
    Grid grid;
    std::vector<Chunk> chunks;
    std::vector<Pair> pairs;
    std::vector<unsigned char> bytes;
    std::vector<Edge> edges;
    std::vector<uint32_t> table, sources;

    Catalogue(const char *name, uint32_t size) : grid(name), bytes(12 * size_t(size)), edges(size) {
        pairs.reserve(grid.edges);
        cut(size);
        for (Chunk &chunk : chunks) {
            read(chunk);
            chunk.label = pairs.size();
            add_label(chunk);
            chunk.pairs = pairs.size() - chunk.label;
        }
    }
    void cut(uint32_t size) {
        size_t first = 0;
        for (uint32_t block = 0; block < grid.counts.size(); block++) {
            uint64_t left = grid.counts[block];
            do {
                uint32_t length = std::min<uint64_t>(left, size);
                if (chunks.size() == MOST_CHUNKS) fail("too many chunks");
                chunks.push_back({block, length, first, 0, 0});
                first += length;
                left -= length;
            } while (left > 0);
        }
    }
    uint32_t row_start(const Chunk &chunk) const { return chunk.block / grid.parts * grid.width; }
    uint32_t row_width(const Chunk &chunk) const { return end_of(row_start(chunk)) - std::min(row_start(chunk), grid.n); }
    uint32_t end_of(uint32_t start) const { return std::min(start + grid.width, grid.n); }
    bool is_short(const Chunk &chunk) const { return row_width(chunk) / LOOKED_THROUGH > chunk.length; }

    // Reads a chunk's edges by one read, and tests each against the chunk's block.
    void read(const Chunk &chunk) {
        if (chunk.length == 0) return;
        read_at(grid.file, grid.edges_at + 12 * chunk.first, bytes.data(), 12 * size_t(chunk.length));
        uint32_t from = row_start(chunk), from_end = end_of(from);
        uint32_t to = chunk.block % grid.parts * grid.width, to_end = end_of(to);
        for (size_t i = 0; i < chunk.length; i++) {
            Edge e = edge_at(&bytes[12 * i]);
            if (e.from < from || e.from >= from_end || e.to < to || e.to >= to_end) fail("bad edge");
            edges[i] = e;
        }
    }
    void count_sources(const Chunk &chunk) {
        uint32_t start = row_start(chunk);
        table.assign(row_width(chunk), 0);
        for (size_t i = 0; i < chunk.length; i++) table[edges[i].from - start]++;
    }
    void sort_sources(const Chunk &chunk) {
        sources.clear();
        for (size_t i = 0; i < chunk.length; i++) sources.push_back(edges[i].from);
        std::sort(sources.begin(), sources.end());
    }
    void add_label(const Chunk &chunk) {
        if (!is_short(chunk)) {
            count_sources(chunk);
            uint32_t start = row_start(chunk), width = table.size();
            for (uint32_t i = 0; i < width; i++) if (table[i] != 0) pairs.push_back({start + i, table[i]});
            return;
        }
        sort_sources(chunk);
        for (size_t i = 0; i < sources.size(); i++) {
            if (i > 0 && sources[i] == sources[i - 1]) pairs.back().count++;
            else pairs.push_back({sources[i], 1});
        }
    }
    // Whether the edges that were read have the label that is kept of the chunk.
    bool has_label(const Chunk &chunk) {
        const Pair *label = &pairs[chunk.label];
        uint32_t left = chunk.length, start = row_start(chunk);
        if (!is_short(chunk)) {
            count_sources(chunk);
            for (size_t i = 0; i < chunk.pairs; i++) {
                if (table[label[i].source - start] != label[i].count) return false;
                left -= label[i].count;
            }
            return left == 0;
        }
        sort_sources(chunk);
        size_t at = 0;
        for (size_t i = 0; i < chunk.pairs; i++)
            for (uint32_t k = 0; k < label[i].count; k++) if (at == sources.size() || sources[at++] != label[i].source) return false;
        return at == sources.size();
    }
};

// Which vertices were changed by the last round, or give anything in a rank job, and which ranges have one.
struct Marks {
    std::vector<unsigned char> active, range;

    void set(const Job &job, const std::vector<uint64_t> &older, const Grid &grid) {
        active.resize(grid.n);
        range.assign(grid.parts, false);
        for (uint32_t v = 0; v < grid.n; v++) active[v] = job.is_rank() ? job.degrees[v] != 0 : job.values[v] != older[v];
        for (uint32_t r = 0; r < grid.parts && r * grid.width < grid.n; r++) {
            auto first = active.begin() + r * grid.width, end = active.begin() + std::min((r + 1) * grid.width, grid.n);
            range[r] = std::find(first, end, true) != end;
        }
    }
    bool need(const Chunk &chunk, const Catalogue &cat, const Job &job) const {
        if (job.kind == "wcc" && range[chunk.block % cat.grid.parts] && chunk.length > 0) return true;
        const Pair *label = &cat.pairs[chunk.label];
        for (size_t i = 0; i < chunk.pairs; i++) if (active[label[i].source]) return true;
        return false;
    }
};

static int print_info(const char *name, uint32_t size) {
    Catalogue cat(name, size);
    printf("vertices %u\nparts %u\nedges %zu\nchunks %zu\nlabels %zu\n", cat.grid.n, cat.grid.parts, cat.grid.edges, cat.chunks.size(), cat.pairs.size());
    return 0;
}

static int make_calls(const char *name, size_t count) {
    Grid grid(name);
    std::vector<unsigned char> bytes(count);
    for (size_t at = 0; at + count <= 12 * grid.edges; at += count) {
        if (lseek(grid.file, grid.edges_at + at, SEEK_SET) < 0 || read(grid.file, bytes.data(), count) != ssize_t(count)) fail("read failed");
    }
    return 0;
}

// One round over the chunks that it needs, and how many edges they have. In the first round older values are those of no vertex.
static size_t make_round(Catalogue &cat, Job &job, Marks &marks, const std::vector<uint64_t> &older) {
    size_t passed = 0;
    marks.set(job, older, cat.grid);
    job.begin_round();
    for (const Chunk &chunk : cat.chunks) {
        if (!marks.need(chunk, cat, job)) continue;
        cat.read(chunk);
        if (!cat.has_label(chunk)) fail("changed");
        job.pass(cat.edges.data(), chunk.length);
        passed += chunk.length;
    }
    job.end_round();
    return passed;
}

static int make_rounds(const char *name, uint32_t size, const char *kind, unsigned few, unsigned many, const char *values) {
    Catalogue cat(name, size);
    Job job(kind, cat.grid.n);
    Marks marks;
    for (const Pair &pair : cat.pairs) job.degrees[pair.source] += pair.count;
    const std::vector<uint64_t> untouched(cat.grid.n, TOP);
    size_t passed = 0;
    Watch start;
    for (unsigned round = 0; round < many; round++) {
        if (round == few) {
            passed = 0;
            start = Watch();
        }
        passed += make_round(cat, job, marks, round == 0 ? untouched : job.sums);
    }
    job.print(start, passed);
    if (values) job.write(values);
    return 0;
}

int main(int count, char **words) {
    if (count == 4 && !strcmp(words[1], "info")) return print_info(words[2], atoi(words[3]));
    if (count == 4 && !strcmp(words[1], "calls")) return make_calls(words[2], atoi(words[3]));
    if ((count == 7 || count == 8) && !strcmp(words[1], "rounds"))
        return make_rounds(words[2], atoi(words[3]), words[4], atoi(words[5]), atoi(words[6]), count == 8 ? words[7] : nullptr);
    fail("info GRID CHUNK | calls GRID BYTES | rounds GRID CHUNK KIND FEW MANY [VALUES]");
}
