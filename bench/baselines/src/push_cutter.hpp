// The push-cutter: where on a line, at one height, a cutter touches triangles. Lengths are in
// millimetres.
//
// The lines, called fibers, go along x here. For those along y, the triangles are given mirrored.
#pragma once

#include "geometry.hpp"

struct Interval {
    double low = DBL_MAX, high = -DBL_MAX;

    bool is_empty() const { return low > high; }

    void add(double x) {
        low = std::min(low, x);
        high = std::max(high, x);
    }
};

// The tips along x at y and z at which a cutter touches a triangle: the interval over all places
// where its surface rests on a corner, an edge or the facet.
struct Push {
    const Cutter& cutter;
    double y, z;
    Interval tips;

    void on_point(Point p) {
        double height = p.z - z;
        if (height < -1e-12) return;
        double width = cutter.width(std::max(0.0, height)), across = p.y - y;
        double square = width * width - across * across;
        if (square < 0) return;
        double half = std::sqrt(square);
        tips.add(p.x - half);
        tips.add(p.x + half);
    }

    // The shank against an edge: seen from above, its circle rests on the line.
    void shank_on_edge(Point a, Point b) {
        Point d = b - a;
        double length = std::hypot(d.x, d.y);
        if (length < 1e-12 || std::fabs(d.y) < 1e-12) return;
        double across_x = d.y / length, across_y = -d.x / length;
        for (double reach : {-cutter.radius, cutter.radius}) {
            double t = (y + reach * across_y - a.y) / d.y;
            if (t < 0 || t > 1) continue;
            if (a.z + t * d.z - z < cutter.shank() - 1e-12) continue;
            tips.add(a.x + t * d.x - reach * across_x);
        }
    }

    // Adds the tip at a.x + ahead where the contact, at t along the edge, is on it and on the cutter.
    void add_on_edge(Point a, Point d, double t, double ahead) {
        double height = a.z - z + t * d.z;
        if (t >= 0 && t <= 1 && height >= 0 && height <= cutter.shank()) tips.add(a.x + ahead);
    }

    // The ball's centre against the cylinder of the ball's radius round the edge.
    void ball_on_edge(Point a, Point b) {
        Point d = b - a;
        double length_square = dot(d, d);
        if (length_square < 1e-18) return;
        double from_y = y - a.y, from_z = z + cutter.radius - a.z;
        double along = from_y * d.y + from_z * d.z;
        double second = 1 - d.x * d.x / length_square;
        double first = -2 * d.x * along / length_square;
        double constant = from_y * from_y + from_z * from_z - along * along / length_square
                        - cutter.radius * cutter.radius;
        if (second < 1e-14) return;
        double under = first * first - 4 * second * constant;
        if (under < 0) return;
        for (double root : {-std::sqrt(under), std::sqrt(under)}) {
            double ahead = (root - first) / (2 * second);
            add_on_edge(a, d, (ahead * d.x + along) / length_square, ahead);
        }
    }

    // The cone against an edge: where the edge's line is tangent to it, so that the quadratic of the
    // place along the line has a double root. An edge as steep as the cone rests by its ends.
    void cone_on_edge(Point a, Point b) {
        Point d = b - a;
        double slope_square = cutter.slope * cutter.slope, from_y = a.y - y, from_z = a.z - z;
        double second = d.z * d.z - slope_square * (d.x * d.x + d.y * d.y);
        if (second >= -1e-14) return;
        // With the tip at a.x - s, the others are first + first_by * s and constant - slope² * s².
        double first = 2 * (from_z * d.z - slope_square * from_y * d.y);
        double first_by = -2 * slope_square * d.x;
        double constant = from_z * from_z - slope_square * from_y * from_y;
        double a2 = first_by * first_by + 4 * second * slope_square;
        double a1 = 2 * first * first_by;
        double a0 = first * first - 4 * second * constant;
        if (std::fabs(a2) < 1e-18) return;
        double under = a1 * a1 - 4 * a2 * a0;
        if (under < 0) return;
        for (double root : {-std::sqrt(under), std::sqrt(under)}) {
            double s = (root - a1) / (2 * a2);
            add_on_edge(a, d, -(first + first_by * s) / (2 * second), -s);
        }
    }

    // Whether a point of the triangle's plane lies in the triangle.
    static bool is_inside(const Triangle& t, Point p) {
        Point area = cross(t.corner[1] - t.corner[0], t.corner[2] - t.corner[0]);
        double least = -1e-9 * dot(area, area);
        for (int k = 0; k < 3; k++) {
            Point edge = t.corner[(k + 1) % 3] - t.corner[k];
            if (dot(cross(edge, p - t.corner[k]), area) < least) return false;
        }
        return true;
    }

    // The ball, or the cone's tip, against the facet.
    void on_facet(const Triangle& t) {
        const Point& n = t.normal;
        if (std::fabs(n.x) < 1e-12) return;
        const Point& a = t.corner[0];
        double level = n.x * a.x + n.y * (a.y - y) + n.z * (a.z - z);
        if (cutter.kind == Kind::Cone) {
            double x = level / n.x;
            if (is_inside(t, {x, y, z})) tips.add(x);
        } else if (cutter.kind == Kind::Ball) {
            for (double reach : {-cutter.radius, cutter.radius}) {
                double x = (level + reach - n.z * cutter.radius) / n.x;
                Point p{x - reach * n.x, y - reach * n.y, z + cutter.radius - reach * n.z};
                if (p.z - z <= cutter.radius + 1e-12 && is_inside(t, p)) tips.add(x);
            }
        }
    }

    // The sharp rim of a flat cutter or a cone: what it cuts out of the triangle is an edge for it.
    void rim_on_facet(const Triangle& t) {
        double level = z + cutter.shank();
        if (t.box[ZMin] >= level || t.box[ZMax] <= level) return;
        Point cut[2];
        int count = 0;
        for (int k = 0; k < 3 && count < 2; k++) {
            const Point &a = t.corner[k], &b = t.corner[(k + 1) % 3];
            if ((a.z < level) == (b.z < level)) continue;
            double at = (level - a.z) / (b.z - a.z);
            cut[count++] = {a.x + at * (b.x - a.x), a.y + at * (b.y - a.y), level};
        }
        for (int k = 0; k < count; k++) on_point(cut[k]);
        if (count == 2) shank_on_edge(cut[0], cut[1]);
    }

    void on_triangle(const Triangle& t) {
        if (t.box[ZMax] < z) return;
        if (t.box[YMin] > y + cutter.radius || t.box[YMax] < y - cutter.radius) return;
        for (int k = 0; k < 3; k++) {
            const Point &a = t.corner[k], &b = t.corner[(k + 1) % 3];
            on_point(a);
            shank_on_edge(a, b);
            if (cutter.kind == Kind::Ball) ball_on_edge(a, b);
            if (cutter.kind == Kind::Cone) cone_on_edge(a, b);
        }
        on_facet(t);
        if (cutter.kind != Kind::Ball) rim_on_facet(t);
    }
};

// A line, where it is across its direction, and the intervals on it that touch the part, in order.
struct Fiber {
    double at;
    std::vector<Interval> intervals;
};

// Pushes the cutter along the fiber at height z, from `first` to `last`. The tree is one in y and z.
inline void push(const KdTree& tree, const Cutter& cutter, double z, double first, double last,
                 Fiber& fiber) {
    std::vector<Interval> found;
    double low = fiber.at - cutter.radius, high = fiber.at + cutter.radius;
    tree.search(low, high, z, DBL_MAX, [&](uint32_t i) {
        const Triangle& t = (*tree.triangles)[i];
        if (t.box[XMin] > last + cutter.radius || t.box[XMax] < first - cutter.radius) return;
        Push push{cutter, fiber.at, z, {}};
        push.on_triangle(t);
        const Interval& tips = push.tips;
        if (tips.is_empty() || tips.low > last || tips.high < first) return;
        found.push_back({std::max(tips.low, first), std::min(tips.high, last)});
    });
    std::sort(found.begin(), found.end(),
              [](const Interval& a, const Interval& b) { return a.low < b.low; });
    auto& joined = fiber.intervals;
    for (const Interval& next : found) {
        if (!joined.empty() && next.low <= joined.back().high)
            joined.back().high = std::max(joined.back().high, next.high);
        else
            joined.push_back(next);
    }
}

// The triangle with x for y, for fibers along y.
inline Triangle mirrored(const Triangle& t) {
    Triangle out = t;
    for (Point& p : out.corner) std::swap(p.x, p.y);
    out.init();
    return out;
}
