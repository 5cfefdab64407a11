// What the baselines share: points, triangles, cutters, the reader of ASCII STL, a kd-tree over
// triangles, and the drop height of a cutter. Lengths are in millimetres.
#pragma once

#include <algorithm>
#include <cfloat>
#include <chrono>
#include <cmath>
#include <cstdint>
#include <cstdio>
#include <cstdlib>
#include <string>
#include <vector>

struct Point {
    double x, y, z;
};

inline Point operator-(Point a, Point b) { return {a.x - b.x, a.y - b.y, a.z - b.z}; }

inline Point cross(Point a, Point b) {
    return {a.y * b.z - a.z * b.y, a.z * b.x - a.x * b.z, a.x * b.y - a.y * b.x};
}

inline double dot(Point a, Point b) { return a.x * b.x + a.y * b.y + a.z * b.z; }

inline double now() {
    return std::chrono::duration<double>(std::chrono::steady_clock::now().time_since_epoch())
        .count();
}

[[noreturn]] inline void die(const std::string& text) {
    fprintf(stderr, "%s\n", text.c_str());
    exit(2);
}

// The indices of Triangle::box.
enum Side { XMin, XMax, YMin, YMax, ZMin, ZMax };

struct Triangle {
    Point corner[3];
    Point normal;  // of length 1 and turned up; zero where the triangle has no area
    double box[6];

    void init() {
        for (int k = 0; k < 3; k++) {
            box[2 * k] = DBL_MAX;
            box[2 * k + 1] = -DBL_MAX;
        }
        for (auto& p : corner) {
            const double v[3] = {p.x, p.y, p.z};
            for (int k = 0; k < 3; k++) {
                box[2 * k] = std::min(box[2 * k], v[k]);
                box[2 * k + 1] = std::max(box[2 * k + 1], v[k]);
            }
        }
        normal = cross(corner[1] - corner[0], corner[2] - corner[0]);
        double length = std::sqrt(dot(normal, normal));
        if (length < 1e-12) {
            normal = {0, 0, 0};
            return;
        }
        double scale = normal.z < 0 ? -1 / length : 1 / length;
        normal = {normal.x * scale, normal.y * scale, normal.z * scale};
    }
};

enum class Kind { Flat, Ball, Cone };

struct Cutter {
    Kind kind;
    double radius;
    double slope;  // of a cone: its rise over its run

    // The height of the cutter's surface over its tip, by the square of the distance from the axis.
    double height(double square) const {
        switch (kind) {
        case Kind::Flat:
            return 0;
        case Kind::Ball:
            return radius - std::sqrt(std::max(0.0, radius * radius - square));
        default:
            return slope * std::sqrt(square);
        }
    }

    // The height over the tip from which on the cutter has its whole radius.
    double shank() const {
        switch (kind) {
        case Kind::Flat:
            return 0;
        case Kind::Ball:
            return radius;
        default:
            return slope * radius;
        }
    }

    // The radius at a height over the tip.
    double width(double height) const {
        if (height >= shank()) return radius;
        if (kind == Kind::Cone) return height / slope;
        double below = radius - height;
        return std::sqrt(std::max(0.0, radius * radius - below * below));
    }
};

// A cutter by the words of a command line; rise and run count for a cone.
inline Cutter cutter_of(const std::string& kind, double radius, double rise, double run) {
    if (kind == "flat") return {Kind::Flat, radius, 0};
    if (kind == "ball") return {Kind::Ball, radius, 0};
    if (kind == "cone") return {Kind::Cone, radius, rise / run};
    die("the cutter is flat, ball or cone");
}

inline std::string read_file(const char* path) {
    FILE* file = fopen(path, "rb");
    if (!file) die(std::string("cannot open ") + path);
    std::string text;
    char buffer[1 << 16];
    size_t count;
    while ((count = fread(buffer, 1, sizeof buffer, file)) > 0) text.append(buffer, count);
    fclose(file);
    return text;
}

// Reads an ASCII STL text word by word.
inline std::vector<Triangle> read_stl(const char* path) {
    std::string text = read_file(path);
    std::vector<Triangle> out;
    Triangle triangle{};
    size_t at = 0, begin = 0, end = 0;
    int corners = 0;
    auto is_blank = [](char c) { return c == ' ' || (c >= 9 && c <= 13); };
    auto next_word = [&]() {
        while (at < text.size() && is_blank(text[at])) at++;
        begin = at;
        while (at < text.size() && !is_blank(text[at])) at++;
        end = at;
        return end > begin;
    };
    bool first = true;
    while (next_word()) {
        std::string word = text.substr(begin, end - begin);
        for (auto& c : word) c = (char)tolower(c);
        if (first && word != "solid") die("not an ASCII STL");
        first = false;
        if (word == "solid" || word == "endsolid") {
            while (at < text.size() && text[at] != '\n') at++;
        } else if (word == "facet") {
            corners = 0;
            for (int k = 0; k < 4; k++) next_word();
        } else if (word == "vertex") {
            char* rest = &text[at];
            Point p;
            p.x = strtod(rest, &rest);
            p.y = strtod(rest, &rest);
            p.z = strtod(rest, &rest);
            at = rest - text.data();
            if (corners < 3) triangle.corner[corners] = p;
            corners++;
        } else if (word == "endfacet") {
            if (corners != 3) die("facet without three corners");
            triangle.init();
            out.push_back(triangle);
        } else if (word != "outer" && word != "loop" && word != "endloop") {
            die("unexpected word " + word);
        }
    }
    return out;
}

// A kd-tree over the boxes of triangles in x and y, or in y and z, one triangle a leaf. A node is cut
// at the middle of the widest spread among the four sides, and holds the box of its triangles.
struct KdTree {
    struct Node {
        int low = -1, high = -1;
        int begin, end;
        double box[4];
    };
    std::vector<Node> nodes;
    std::vector<uint32_t> order;
    const std::vector<Triangle>* triangles = nullptr;
    int first_side;

    // `first` is the first of the four sides: XMin, or YMin for a tree in y and z.
    explicit KdTree(const std::vector<Triangle>& all, Side first = XMin)
        : order(all.size()), triangles(&all), first_side(first) {
        for (size_t i = 0; i < all.size(); i++) order[i] = (uint32_t)i;
        nodes.reserve(all.size() * 2 + 1);
        if (!all.empty()) split(0, (int)all.size());
    }

    int split(int begin, int end) {
        int me = (int)nodes.size();
        nodes.push_back({});
        nodes[me].begin = begin;
        nodes[me].end = end;
        int widest = 0;
        double spread = -1, start = 0;
        for (int side = 0; side < 4; side++) {
            double least = DBL_MAX, most = -DBL_MAX;
            for (int i = begin; i < end; i++) {
                double v = (*triangles)[order[i]].box[first_side + side];
                least = std::min(least, v);
                most = std::max(most, v);
            }
            nodes[me].box[side] = side % 2 ? most : least;
            if (most - least > spread) {
                widest = side;
                spread = most - least;
                start = least;
            }
        }
        if (end - begin <= 1 || spread < 1e-9) return me;
        double cut = start + spread / 2;
        auto middle = std::partition(order.begin() + begin, order.begin() + end, [&](uint32_t i) {
            return (*triangles)[i].box[first_side + widest] <= cut;
        });
        int at = (int)(middle - order.begin());
        if (at == begin || at == end) return me;
        int low = split(begin, at), high = split(at, end);
        nodes[me].low = low;
        nodes[me].high = high;
        return me;
    }

    // Calls `visit` with each triangle that may meet the area, which is given by its sides.
    template <class Visit>
    void search(double low0, double high0, double low1, double high1, Visit&& visit) const {
        if (nodes.empty()) return;
        int stack[128], depth = 0;
        stack[depth++] = 0;
        while (depth) {
            const Node& node = nodes[stack[--depth]];
            if (node.box[0] > high0 || node.box[1] < low0) continue;
            if (node.box[2] > high1 || node.box[3] < low1) continue;
            if (node.low < 0) {
                for (int i = node.begin; i < node.end; i++) visit(order[i]);
            } else {
                stack[depth++] = node.high;
                stack[depth++] = node.low;
            }
        }
    }
};

// Whether (x, y) lies over or under the triangle.
inline bool is_within(const Triangle& t, double x, double y) {
    auto side = [&](const Point& a, const Point& b) {
        return (b.x - a.x) * (y - a.y) - (b.y - a.y) * (x - a.x);
    };
    double s0 = side(t.corner[0], t.corner[1]);
    double s1 = side(t.corner[1], t.corner[2]);
    double s2 = side(t.corner[2], t.corner[0]);
    return (s0 >= 0 && s1 >= 0 && s2 >= 0) || (s0 <= 0 && s1 <= 0 && s2 <= 0);
}

// Raises z to where the cutter lies on the inside of the facet, and says whether it does.
inline bool drop_on_facet(const Cutter& c, double x, double y, const Triangle& t, double& z) {
    const Point& n = t.normal;
    if (n.z < 1e-9) return false;
    double tilt = std::hypot(n.x, n.y);
    if (tilt < 1e-12) {
        if (!is_within(t, x, y)) return false;
        z = std::max(z, t.corner[0].z);
        return true;
    }
    double q;  // the distance of the contact from the axis
    switch (c.kind) {
    case Kind::Flat:
        q = c.radius;
        break;
    case Kind::Ball:
        q = c.radius * tilt;
        break;
    default:
        q = (tilt / n.z) <= c.slope ? 0 : c.radius;
    }
    double px = x - q * n.x / tilt, py = y - q * n.y / tilt;
    if (!is_within(t, px, py)) return false;
    double plane =
        t.corner[0].z - (n.x * (px - t.corner[0].x) + n.y * (py - t.corner[0].y)) / n.z;
    z = std::max(z, plane - c.height(q * q));
    return true;
}

inline void drop_on_corners(const Cutter& c, double x, double y, const Triangle& t, double& z) {
    for (auto& p : t.corner) {
        double square = (p.x - x) * (p.x - x) + (p.y - y) * (p.y - y);
        if (square <= c.radius * c.radius) z = std::max(z, p.z - c.height(square));
    }
}

inline void drop_on_edges(const Cutter& c, double x, double y, const Triangle& t, double& z) {
    for (int k = 0; k < 3; k++) {
        const Point &a = t.corner[k], &b = t.corner[(k + 1) % 3];
        double ex = b.x - a.x, ey = b.y - a.y, length = std::hypot(ex, ey);
        if (length < 1e-9) continue;  // upright: its corners do
        double inverse = 1 / length;
        double apart = ((x - a.x) * ey - (y - a.y) * ex) * inverse;
        double square = c.radius * c.radius - apart * apart;
        if (square < 0) continue;
        // Along the edge, from the foot of the axis on it.
        double from = ((a.x - x) * ex + (a.y - y) * ey) * inverse, to = from + length;
        double half = std::sqrt(square), low = std::max(from, -half), high = std::min(to, half);
        if (low > high) continue;
        double rise = (b.z - a.z) * inverse, u;
        switch (c.kind) {
        case Kind::Flat:
            u = rise > 0 ? high : low;
            break;
        case Kind::Ball:
            u = rise * half / std::sqrt(1 + rise * rise);
            break;
        default:
            if (std::fabs(rise) >= c.slope)
                u = rise > 0 ? high : low;
            else
                u = std::fabs(apart) * rise / std::sqrt(c.slope * c.slope - rise * rise);
        }
        u = std::min(std::max(u, low), high);
        z = std::max(z, a.z + (u - from) * rise - c.height(apart * apart + u * u));
    }
}

inline void drop_on_triangle(const Cutter& c, double x, double y, const Triangle& t, double& z) {
    if (t.box[ZMax] <= z) return;
    if (t.box[XMin] > x + c.radius || t.box[XMax] < x - c.radius) return;
    if (t.box[YMin] > y + c.radius || t.box[YMax] < y - c.radius) return;
    if (drop_on_facet(c, x, y, t, z)) return;
    drop_on_corners(c, x, y, t, z);
    if (t.box[ZMax] <= z) return;
    drop_on_edges(c, x, y, t, z);
}

// The drop height of the cutter at (x, y), from `floor` on.
inline double drop_at(const KdTree& tree, const Cutter& c, double x, double y, double floor) {
    double z = floor;
    tree.search(x - c.radius, x + c.radius, y - c.radius, y + c.radius, [&](uint32_t i) {
        drop_on_triangle(c, x, y, (*tree.triangles)[i], z);
    });
    return z;
}

// first, first + step and so on up to last, and last itself.
inline std::vector<double> positions(double first, double last, double step) {
    long begin = lround(first * 100), end = lround(last * 100), by = lround(step * 100);
    if (begin > end || by < 1) die("bad area or step");
    std::vector<double> out;
    long at = begin;
    for (; at <= end; at += by) out.push_back(at / 100.0);
    if (at - by != end) out.push_back(end / 100.0);
    return out;
}
