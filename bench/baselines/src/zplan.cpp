// zplan JOB PART PROGRAM THREADS
//
// Writes a raster program: roughing by layers, then finishing along the part. Heights are drop
// heights rounded up to 0.01 mm. A straight move to the next place is taken where it is short and
// halving it finds, by wider and lower cutters, that it is clear of the part; else the cutter is
// lifted, moved over the place and let down. Besides what a job has, it reads the keys `layer`,
// `rough_raster`, `raster` and `lift`.
#include "geometry.hpp"
#include "job.hpp"

// A place that the cutter goes to, in units, and the step of its raster.
struct Visit {
    long x, y, z, step;

    Point point() const { return {x / 100.0, y / 100.0, z / 100.0}; }
};

// Whether a straight move is clear of the part.
static bool passes(const KdTree& tree, const Cutter& cutter, Point a, Point b) {
    double half = std::hypot(b.x - a.x, b.y - a.y) / 2, reach = half + 0.02;
    double low = std::floor(std::min(a.z, b.z) * 100) / 100;
    Cutter wide = cutter;
    wide.radius += reach;
    if (cutter.kind == Kind::Ball) low -= reach;
    if (cutter.kind == Kind::Cone) low -= reach * cutter.slope + 0.01;
    Point middle{(a.x + b.x) / 2, (a.y + b.y) / 2, (a.z + b.z) / 2};
    if (drop_at(tree, wide, middle.x, middle.y, low) <= low + 1e-9) return true;
    if (half < 0.01 && std::fabs(b.z - a.z) < 0.02) return false;
    return passes(tree, cutter, a, middle) && passes(tree, cutter, middle, b);
}

int main(int argc, char** argv) {
    if (argc < 5) die("zplan JOB PART PROGRAM THREADS");
    int threads = atoi(argv[4]);
    Job job = read_job(argv[1]);
    auto triangles = read_stl(argv[2]);
    Cutter cutter = job.cutter();
    KdTree tree(triangles);
    double floor = job.millimetres("floor");
    long floor_units = lround(job.units("floor")), top = lround(job.units("top"));
    long clear = lround(job.units("clear")), raster = lround(job.units("raster"));
    long lift = lround(job.units("lift"));
    auto area = job.list("area"), home = job.list("home");

    struct Grid {
        std::vector<long> xs, ys, heights;
    };
    auto grid_of = [&](long step) {
        Grid grid;
        for (double x : positions(area[0] / 100, area[2] / 100, step / 100.0))
            grid.xs.push_back(lround(x * 100));
        for (double y : positions(area[1] / 100, area[3] / 100, step / 100.0))
            grid.ys.push_back(lround(y * 100));
        long count = (long)(grid.xs.size() * grid.ys.size());
        grid.heights.resize(count);
#pragma omp parallel for schedule(dynamic, 64) num_threads(threads)
        for (long i = 0; i < count; i++) {
            double x = grid.xs[i % grid.xs.size()] / 100.0, y = grid.ys[i / grid.xs.size()] / 100.0;
            grid.heights[i] = (long)std::ceil(drop_at(tree, cutter, x, y, floor) * 100 - 1e-7);
        }
        return grid;
    };
    // Calls `visit` with x, y and the drop height, row by row, to and fro.
    auto each = [&](const Grid& grid, auto visit) {
        for (size_t r = 0; r < grid.ys.size(); r++)
            for (size_t k = 0; k < grid.xs.size(); k++) {
                size_t c = r % 2 ? grid.xs.size() - 1 - k : k;
                visit(grid.xs[c], grid.ys[r], grid.heights[r * grid.xs.size() + c]);
            }
    };

    std::vector<Visit> visits;
    if (job.has("layer")) {
        long layer = lround(job.units("layer")), step = lround(job.units("rough_raster"));
        Grid grid = grid_of(step);
        for (long z = top - layer; z > floor_units; z -= layer)
            each(grid, [&](long x, long y, long height) {
                if (height <= z) visits.push_back({x, y, z, step});
            });
    }
    each(grid_of(raster), [&](long x, long y, long height) {
        if (height + lift < top) visits.push_back({x, y, height + lift, raster});
    });

    // Which visits are reached straight from the one before, or from home.
    Visit start{lround(home[0]), lround(home[1]), clear, 0};
    long visit_count = (long)visits.size();
    std::vector<char> is_straight(visit_count);
#pragma omp parallel for schedule(dynamic, 64) num_threads(threads)
    for (long i = 0; i < visit_count; i++) {
        const Visit &from = i ? visits[i - 1] : start, &to = visits[i];
        bool is_near = labs(to.x - from.x) <= 2 * to.step && labs(to.y - from.y) <= 2 * to.step;
        is_straight[i] = is_near && passes(tree, cutter, from.point(), to.point());
    }

    FILE* file = fopen(argv[3], "wb");
    if (!file) die(std::string("cannot write ") + argv[3]);
    long x = start.x, y = start.y, z = start.z, moves = 0;
    auto put = [&](int code, long to_x, long to_y, long to_z) {
        fprintf(file, "G%d X%.2f Y%.2f Z%.2f\n", code, to_x / 100.0, to_y / 100.0, to_z / 100.0);
        x = to_x;
        y = to_y;
        z = to_z;
        moves++;
    };
    fprintf(file, "%%\nG17 G21 G90\n");
    for (long i = 0; i < visit_count; i++) {
        const Visit& v = visits[i];
        if (v.x == x && v.y == y && v.z == z) continue;
        if (is_straight[i]) {
            put(1, v.x, v.y, v.z);
            continue;
        }
        if (z < clear) put(0, x, y, clear);
        if (x != v.x || y != v.y) put(0, v.x, v.y, z);
        if (top < z) put(0, x, y, top);
        put(1, v.x, v.y, v.z);
    }
    if (z < clear) put(0, x, y, clear);
    if (x != start.x || y != start.y) put(0, start.x, start.y, z);
    fprintf(file, "M2\n%%\n");
    fclose(file);
    printf("moves %ld\n", moves);
}
