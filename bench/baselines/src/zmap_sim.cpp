// zmap_sim JOB PART PROGRAM THREADS
//
// Checks a program against a stock and a part by samples. At samples along each move it compares the
// tip with the drop height there, and stamps the cutter into a grid of columns; where a rapid lowers
// a column, that is a fault. Last it compares each column with the part's height there, or with the
// greatest within `band`.
//
// It prints a line with the verdict, and a line with the seconds of its steps.
#include "geometry.hpp"
#include "job.hpp"

struct Move {
    bool is_rapid;
    Point from, to;

    Point at(double fraction) const {
        return {from.x + fraction * (to.x - from.x), from.y + fraction * (to.y - from.y),
                from.z + fraction * (to.z - from.z)};
    }

    // Into how many equal steps, a power of two, no longer than `most` in x and y together.
    long steps(double most) const {
        double length = std::fabs(to.x - from.x) + std::fabs(to.y - from.y);
        long count = 1;
        while (length > most * count + 1e-12) count *= 2;
        return count;
    }
};

// Reads straight moves: G0 and G1, X, Y and Z, comments, M2 and M30; other words have no effect.
static std::vector<Move> read_program(const char* path, Point at) {
    std::string text = read_file(path);
    text.push_back('\n');
    std::vector<Move> out;
    bool is_rapid = true;
    size_t i = 0;
    while (i < text.size()) {
        bool moves = false, ends = false;
        Point to = at;
        while (i < text.size() && text[i] != '\n') {
            char letter = (char)toupper(text[i]);
            if (letter == '(') {
                while (text[i] != ')' && text[i] != '\n') i++;
                if (text[i] == ')') i++;
            } else if (letter == ';') {
                while (text[i] != '\n') i++;
            } else if (letter >= 'A' && letter <= 'Z') {
                i++;
                char* rest;
                double value = strtod(&text[i], &rest);
                i = std::max(i, (size_t)(rest - text.data()));
                if (letter == 'G' && value == 0) is_rapid = true;
                if (letter == 'G' && value == 1) is_rapid = false;
                if (letter == 'M' && (value == 2 || value == 30)) ends = true;
                if (letter == 'X') to.x = value, moves = true;
                if (letter == 'Y') to.y = value, moves = true;
                if (letter == 'Z') to.z = value, moves = true;
            } else {
                i++;
            }
        }
        i++;
        if (moves) {
            out.push_back({is_rapid, at, to});
            at = to;
        }
        if (ends) break;
    }
    return out;
}

int main(int argc, char** argv) {
    if (argc < 5) die("zmap_sim JOB PART PROGRAM THREADS");
    int threads = atoi(argv[4]);
    double start = now();
    Job job = read_job(argv[1]);
    auto triangles = read_stl(argv[2]);
    Cutter cutter = job.cutter();
    double radius = cutter.radius;
    double floor = job.millimetres("floor"), top = job.millimetres("top");
    double clear = job.millimetres("clear"), pitch = job.millimetres("pitch");
    double sample = job.millimetres("sample"), allowance = job.millimetres("allowance");
    double band = job.millimetres("band");
    auto area = job.list("area"), home = job.list("home");
    for (auto& v : area) v /= 100;
    auto moves = read_program(argv[3], {home[0] / 100, home[1] / 100, clear});
    long move_count = (long)moves.size();
    long columns = (long)std::floor((area[2] - area[0]) / pitch + 1e-9) + 1;
    long rows = (long)std::floor((area[3] - area[1]) / pitch + 1e-9) + 1;
    double read = now();
    KdTree tree(triangles);
    double built = now();

    // The tip against the drop height, at the samples.
    long gouge = move_count;
    uint64_t samples = 0;
#pragma omp parallel for schedule(dynamic, 16) num_threads(threads) reduction(min : gouge) reduction(+ : samples)
    for (long i = 0; i < move_count; i++) {
        long steps = moves[i].steps(sample);
        samples += steps + 1;
        for (long k = 0; k <= steps; k++) {
            Point tip = moves[i].at(double(k) / steps);
            if (drop_at(tree, cutter, tip.x, tip.y, tip.z) > tip.z + 1e-6) gouge = std::min(gouge, i);
        }
    }
    double tested = now();

    // The stock, in bands of rows, each with the list of its moves.
    const long rows_a_band = 16;
    long bands = (rows + rows_a_band - 1) / rows_a_band;
    std::vector<std::vector<uint32_t>> lists(bands);
    for (long i = 0; i < move_count; i++) {
        double low = std::min(moves[i].from.y, moves[i].to.y) - radius - area[1];
        double high = std::max(moves[i].from.y, moves[i].to.y) + radius - area[1];
        long first = (long)std::floor(low / (pitch * rows_a_band));
        long last = (long)std::floor(high / (pitch * rows_a_band));
        for (long b = std::max(0l, first); b <= std::min(bands - 1, last); b++)
            lists[b].push_back((uint32_t)i);
    }
    std::vector<double> tops((size_t)columns * rows, top);
    long rapid = move_count;
#pragma omp parallel for schedule(dynamic, 1) num_threads(threads) reduction(min : rapid)
    for (long b = 0; b < bands; b++) {
        long row_begin = b * rows_a_band, row_end = std::min(rows, row_begin + rows_a_band);
        for (uint32_t i : lists[b]) {
            const Move& move = moves[i];
            if (std::min(move.from.z, move.to.z) >= top) continue;
            long steps = move.steps(sample);
            for (long k = 0; k <= steps; k++) {
                Point tip = move.at(double(k) / steps);
                if (tip.z >= top) continue;
                long r0 = std::max(row_begin, (long)std::ceil((tip.y - radius - area[1]) / pitch));
                long r1 = std::min(row_end - 1, (long)std::floor((tip.y + radius - area[1]) / pitch));
                for (long r = r0; r <= r1; r++) {
                    double dy = area[1] + r * pitch - tip.y;
                    double square = radius * radius - dy * dy;
                    if (square <= 0) continue;
                    double half = std::sqrt(square);
                    long c0 = std::max(0l, (long)std::ceil((tip.x - half - area[0]) / pitch));
                    long c1 = std::min(columns - 1, (long)std::floor((tip.x + half - area[0]) / pitch));
                    double* row = &tops[(size_t)r * columns];
                    for (long c = c0; c <= c1; c++) {
                        double dx = area[0] + c * pitch - tip.x;
                        double height = std::max(floor, tip.z + cutter.height(dx * dx + dy * dy));
                        if (height >= row[c]) continue;
                        if (move.is_rapid && height < row[c] - 1e-6) rapid = std::min(rapid, (long)i);
                        row[c] = height;
                    }
                }
            }
        }
    }
    double cut = now();

    // What is left over the part: a flat cutter of the band's radius finds the part's height.
    Cutter probe{Kind::Flat, std::max(band, 1e-7), 0};
    double most = 0;
    long left = 0;
#pragma omp parallel for schedule(dynamic, 8) num_threads(threads) reduction(max : most) reduction(+ : left)
    for (long r = 0; r < rows; r++)
        for (long c = 0; c < columns; c++) {
            double height = drop_at(tree, probe, area[0] + c * pitch, area[1] + r * pitch, floor);
            double over = tops[(size_t)r * columns + c] - height;
            most = std::max(most, over);
            if (over > allowance + 1e-6) left++;
        }
    double done = now();

    const char* verdict = gouge < move_count ? "gouge"
                        : rapid < move_count ? "rapid"
                        : left               ? "left"
                                             : "ok";
    printf("verdict %s moves %ld columns %ld samples %llu left %.4f\n", verdict, move_count,
           columns * rows, (unsigned long long)samples, most);
    printf("seconds read %.3f tree %.3f gouge %.3f stock %.3f left %.3f total %.3f\n", read - start,
           built - read, tested - built, cut - tested, done - cut, done - start);
}
