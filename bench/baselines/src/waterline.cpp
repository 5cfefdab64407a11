// waterline PART CUTTER RADIUS RISE RUN X0 Y0 X1 Y1 STEP HEIGHT THREADS [loops|ends]
//
// The loops of a cutter round a part at one height, by fibers over a lattice. Lengths are in
// millimetres; CUTTER is flat, ball or cone, and RISE and RUN count for a cone. It prints the numbers
// of fibers, loops and points, and the seconds of reading, of making the trees, of the pushes and of
// the weave; or, with `loops`, each loop, a line with the number of its points and then a line for
// each; or, with `ends`, each interval of each fiber, as x or y for the fiber's direction, where the
// fiber is across it, and the interval's ends.
#include "push_cutter.hpp"

enum Direction { East, North, West, South };

// Where a fiber's interval ends, or where two intervals cross, and the vertices next to it.
struct Vertex {
    double x, y;
    bool is_end;
    int next[4] = {-1, -1, -1, -1};
};

using Loop = std::vector<Point>;

// The plane graph of the intervals of fibers along x and along y: the faces with ends are the loops.
struct Weave {
    std::vector<Vertex> vertices;

    int add(double x, double y, bool is_end) {
        vertices.push_back({x, y, is_end});
        return (int)vertices.size() - 1;
    }

    // Links the vertices of an interval, which are given in their order.
    void link(const std::vector<int>& stops, Direction ahead, Direction back) {
        for (size_t k = 0; k + 1 < stops.size(); k++) {
            vertices[stops[k]].next[ahead] = stops[k + 1];
            vertices[stops[k + 1]].next[back] = stops[k];
        }
    }

    Weave(const std::vector<Fiber>& along_x, const std::vector<Fiber>& along_y) {
        // The crossings of each interval along y, in order, since the fibers along x come in order.
        std::vector<std::vector<std::vector<int>>> columns(along_y.size());
        for (size_t i = 0; i < along_y.size(); i++) columns[i].resize(along_y[i].intervals.size());
        for (const Fiber& fiber : along_x)
            for (const Interval& interval : fiber.intervals) {
                std::vector<int> row{add(interval.low, fiber.at, true)};
                auto begin = std::lower_bound(along_y.begin(), along_y.end(), interval.low,
                                              [](const Fiber& f, double x) { return f.at < x; });
                for (size_t i = begin - along_y.begin(); i < along_y.size(); i++) {
                    if (along_y[i].at > interval.high) break;
                    // The last interval of that fiber that begins up to here.
                    const auto& others = along_y[i].intervals;
                    auto after =
                        std::upper_bound(others.begin(), others.end(), fiber.at,
                                         [](double y, const Interval& o) { return y < o.low; });
                    if (after == others.begin() || (after - 1)->high < fiber.at) continue;
                    row.push_back(add(along_y[i].at, fiber.at, false));
                    columns[i][after - 1 - others.begin()].push_back(row.back());
                }
                row.push_back(add(interval.high, fiber.at, true));
                link(row, East, West);
            }
        for (size_t i = 0; i < along_y.size(); i++)
            for (size_t k = 0; k < columns[i].size(); k++) {
                auto& column = columns[i][k];
                const Interval& interval = along_y[i].intervals[k];
                column.insert(column.begin(), add(along_y[i].at, interval.low, true));
                column.push_back(add(along_y[i].at, interval.high, true));
                link(column, North, South);
            }
    }

    // The direction in which the way goes on that came to a vertex in this one: as far to the right
    // as it can, and back at an end.
    int turn(const Vertex& vertex, int direction) const {
        for (int by : {3, 0, 1, 2}) {
            int to = (direction + by) % 4;
            if (vertex.next[to] >= 0) return to;
        }
        return -1;
    }

    // The loop through an end, with the ends on it, which are marked as seen.
    Loop loop_from(int start, std::vector<char>& is_seen) const {
        Loop loop;
        int at = start, direction = turn(vertices[start], East);
        while (!is_seen[at]) {
            const Vertex& vertex = vertices[at];
            if (vertex.is_end) {
                is_seen[at] = 1;
                loop.push_back({vertex.x, vertex.y, 0});
            }
            if (direction < 0) break;
            at = vertex.next[direction];
            direction = turn(vertices[at], direction);
        }
        return loop;
    }

    std::vector<Loop> loops() const {
        std::vector<char> is_seen(vertices.size(), 0);
        std::vector<Loop> out;
        for (size_t i = 0; i < vertices.size(); i++)
            if (vertices[i].is_end && !is_seen[i]) out.push_back(loop_from((int)i, is_seen));
        return out;
    }
};

static std::vector<Fiber> fibers_at(const std::vector<double>& positions) {
    std::vector<Fiber> out;
    for (double at : positions) out.push_back({at, {}});
    return out;
}

static void push_all(const KdTree& tree, const Cutter& cutter, double z,
                     const std::vector<double>& along, std::vector<Fiber>& fibers, int threads) {
#pragma omp parallel for schedule(dynamic, 1) num_threads(threads)
    for (size_t i = 0; i < fibers.size(); i++)
        push(tree, cutter, z, along.front(), along.back(), fibers[i]);
}

static void print_ends(char direction, const std::vector<Fiber>& fibers) {
    for (const Fiber& fiber : fibers)
        for (const Interval& interval : fiber.intervals)
            printf("%c %.2f %.9f %.9f\n", direction, fiber.at, interval.low, interval.high);
}

static void print_loops(const std::vector<Loop>& loops) {
    for (const Loop& loop : loops) {
        printf("%zu\n", loop.size());
        for (const Point& p : loop) printf("%.9f %.9f\n", p.x, p.y);
    }
}

int main(int argc, char** argv) {
    if (argc < 13)
        die("waterline PART CUTTER RADIUS RISE RUN X0 Y0 X1 Y1 STEP HEIGHT THREADS [loops|ends]");
    auto number = [&](int k) { return atof(argv[k]); };
    Cutter cutter = cutter_of(argv[2], number(3), number(4), number(5));
    auto xs = positions(number(6), number(8), number(10));
    auto ys = positions(number(7), number(9), number(10));
    double z = number(11);
    int threads = atoi(argv[12]);
    std::string shown = argc > 13 ? argv[13] : "";

    double start = now();
    auto triangles = read_stl(argv[1]);
    double read = now();
    std::vector<Triangle> mirrors;
    for (const Triangle& t : triangles) mirrors.push_back(mirrored(t));
    KdTree tree(triangles, YMin), mirror_tree(mirrors, YMin);
    double built = now();
    auto along_x = fibers_at(ys), along_y = fibers_at(xs);
    push_all(tree, cutter, z, xs, along_x, threads);
    push_all(mirror_tree, cutter, z, ys, along_y, threads);
    double pushed = now();
    auto loops = Weave(along_x, along_y).loops();
    double done = now();

    if (shown == "loops") {
        print_loops(loops);
    } else if (shown == "ends") {
        print_ends('x', along_x);
        print_ends('y', along_y);
    } else {
        size_t points = 0;
        for (const Loop& loop : loops) points += loop.size();
        printf("%zu %zu %zu %.6f %.6f %.6f %.6f\n", along_x.size() + along_y.size(), loops.size(),
               points, read - start, built - read, pushed - built, done - pushed);
    }
}
