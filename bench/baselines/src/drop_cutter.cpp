// drop_cutter PART CUTTER RADIUS RISE RUN X0 Y0 X1 Y1 STEP FLOOR THREADS [heights]
//
// Drop heights over a lattice. Lengths are in millimetres; CUTTER is flat, ball or cone, and RISE and
// RUN count for a cone. It prints the number of points and the seconds of reading, of making the tree
// and of the drops; or, with `heights`, each height.
#include "geometry.hpp"

int main(int argc, char** argv) {
    if (argc < 13)
        die("drop_cutter PART CUTTER RADIUS RISE RUN X0 Y0 X1 Y1 STEP FLOOR THREADS [heights]");
    auto number = [&](int k) { return atof(argv[k]); };
    Cutter cutter = cutter_of(argv[2], number(3), number(4), number(5));
    auto xs = positions(number(6), number(8), number(10));
    auto ys = positions(number(7), number(9), number(10));
    double floor = number(11);
    int threads = atoi(argv[12]);
    bool shows_heights = argc > 13 && std::string(argv[13]) == "heights";

    double start = now();
    auto triangles = read_stl(argv[1]);
    double read = now();
    KdTree tree(triangles);
    double built = now();
    long count = (long)(xs.size() * ys.size());
    std::vector<double> heights(count);
#pragma omp parallel for schedule(dynamic, 64) num_threads(threads)
    for (long i = 0; i < count; i++)
        heights[i] = drop_at(tree, cutter, xs[i % xs.size()], ys[i / xs.size()], floor);
    double done = now();

    if (shows_heights) {
        for (double z : heights) printf("%.9f\n", z);
    } else {
        printf("%ld %.6f %.6f %.6f\n", count, read - start, built - read, done - built);
    }
}
