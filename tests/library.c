/* Calls each function of the library from C, on a plate of two triangles, and with each argument
 * wrong in turn. It prints what fails, and ends with 0 where nothing does. */
#include "camtool.h"

#include <stdio.h>
#include <string.h>

#define COUNT(array) (sizeof(array) / sizeof((array)[0]))
#define UNTOUCHED 77

static int failed = 0;

static void expect(const char *what, int32_t wanted, int32_t got) {
    if (wanted != got) {
        failed++;
        printf("%s: wanted %d, got %d\n", what, (int)wanted, (int)got);
    }
}

/* The plate of examples/plate: 2 mm high, in hundredths of a millimetre. */
static const camtool_triangle PLATE[] = {
    {{0, 0, 200}, {200, 0, 200}, {200, 200, 200}},
    {{0, 0, 200}, {200, 200, 200}, {0, 200, 200}},
};
static const camtool_tool FLAT = {CAMTOOL_FLAT, 150, 0, 0, 0, 0};
static const camtool_place PLACES[] = {{100, 100}, {-150, 100}, {-149, 100}, {100, -150}};

static void drops(const char *what, camtool_tool tool, const int32_t *wanted) {
    int32_t heights[COUNT(PLACES)];
    expect(what, CAMTOOL_OK,
           camtool_drop_heights(PLATE, COUNT(PLATE), &tool, PLACES, COUNT(PLACES), 0, heights,
                                COUNT(heights)));
    for (size_t i = 0; i < COUNT(PLACES); i++)
        expect(what, wanted[i], heights[i]);
}

static void test_drops(void) {
    const camtool_tool ball = {CAMTOOL_BALL, 150, 0, 0, 0, 0};
    const camtool_tool held = {CAMTOOL_FLAT, 150, 0, 0, 200, 120};
    const camtool_tool cone = {CAMTOOL_CONE, 150, 1, 1, 0, 0};
    drops("flat", FLAT, (const int32_t[]){200, 0, 200, 0});
    drops("ball", ball, (const int32_t[]){200, 0, 68, 0});
    drops("with a holder", held, (const int32_t[]){200, 80, 200, 80});
    drops("cone", cone, (const int32_t[]){200, 0, 51, 0});
}

static void test_nothing(void) {
    int32_t none[1] = {UNTOUCHED};
    expect("no places", CAMTOOL_OK,
           camtool_drop_heights(PLATE, COUNT(PLATE), &FLAT, PLACES, 0, 0, none, 0));
    expect("no places", UNTOUCHED, none[0]);
    int32_t heights[COUNT(PLACES)];
    expect("no triangles", CAMTOOL_OK,
           camtool_drop_heights(PLATE, 0, &FLAT, PLACES, COUNT(PLACES), -3, heights,
                                COUNT(heights)));
    expect("no triangles", -3, heights[0]);
}

static void refused(const char *what, int32_t status, const camtool_triangle *triangles,
                    camtool_tool tool, const camtool_place *places, int32_t floor, size_t room) {
    int32_t heights[COUNT(PLACES) + 1];
    for (size_t i = 0; i < COUNT(heights); i++)
        heights[i] = UNTOUCHED;
    expect(what, status,
           camtool_drop_heights(triangles, COUNT(PLATE), &tool, places, COUNT(PLACES), floor,
                                heights, room));
    for (size_t i = 0; i < COUNT(heights); i++)
        expect(what, UNTOUCHED, heights[i]);
}

static void refused_tool(const char *what, int32_t status, camtool_tool tool) {
    refused(what, status, PLATE, tool, PLACES, 0, COUNT(PLACES));
}

static void test_refusals(void) {
    refused_tool("no kind", CAMTOOL_CUTTER, (camtool_tool){0, 150, 1, 1, 0, 0});
    refused_tool("a kind too many", CAMTOOL_CUTTER, (camtool_tool){4, 150, 1, 1, 0, 0});
    refused_tool("no radius", CAMTOOL_CUTTER, (camtool_tool){CAMTOOL_FLAT, 0, 0, 0, 0, 0});
    refused_tool("a wide cutter", CAMTOOL_CUTTER, (camtool_tool){CAMTOOL_BALL, 10001, 0, 0, 0, 0});
    refused_tool("a steep cone", CAMTOOL_CUTTER, (camtool_tool){CAMTOOL_CONE, 150, 17, 1, 0, 0});
    refused_tool("no run", CAMTOOL_CUTTER, (camtool_tool){CAMTOOL_CONE, 150, 1, 0, 0, 0});
    refused_tool("no stickout", CAMTOOL_HOLDER, (camtool_tool){CAMTOOL_FLAT, 150, 0, 0, 200, 0});
    refused_tool("no holder", CAMTOOL_HOLDER, (camtool_tool){CAMTOOL_FLAT, 150, 0, 0, 0, 120});
    refused_tool("a long stickout", CAMTOOL_HOLDER,
                 (camtool_tool){CAMTOOL_FLAT, 150, 0, 0, 200, CAMTOOL_MAX_COORDINATE + 1});

    camtool_triangle far[COUNT(PLATE)];
    memcpy(far, PLATE, sizeof PLATE);
    far[1].c.z = INT32_MIN;
    refused("a corner far away", CAMTOOL_TRIANGLE, far, FLAT, PLACES, 0, COUNT(PLACES));
    camtool_place outside[COUNT(PLACES)];
    memcpy(outside, PLACES, sizeof PLACES);
    outside[3].y = CAMTOOL_MAX_COORDINATE + 1;
    refused("a place far away", CAMTOOL_PLACE, PLATE, FLAT, outside, 0, COUNT(PLACES));
    refused("a deep floor", CAMTOOL_FLOOR, PLATE, FLAT, PLACES, -CAMTOOL_MAX_COORDINATE - 1,
            COUNT(PLACES));
    refused("a short array", CAMTOOL_ROOM, PLATE, FLAT, PLACES, 0, COUNT(PLACES) - 1);
    refused("a long array", CAMTOOL_ROOM, PLATE, FLAT, PLACES, 0, COUNT(PLACES) + 1);
}

static int32_t read_part(const char *text, int32_t unit, int32_t snap, camtool_triangle *triangles,
                         size_t count, camtool_reading *told) {
    return camtool_read_part((const uint8_t *)text, strlen(text), unit, snap, triangles, count, told);
}

#define ONE_FACET                                                                                   \
    "facet normal 0 0 1\nouter loop\nvertex 0 0 2\nvertex 2 0 2\nvertex 2 2.005 2\nendloop\n"       \
    "endfacet\n"

#define HIGH_FACET                                                                                  \
    "facet normal 0 0 1\nouter loop\nvertex 0 0 3.01\nvertex 2 0 2\nvertex 2 2 2\nendloop\n"       \
    "endfacet\n"

static void test_parts(void) {
    camtool_triangle one;
    camtool_reading told;
    const char *text = "solid s\n" ONE_FACET "endsolid s\n";
    expect("a part", CAMTOOL_OK, read_part(text, 2, 1, &one, 1, &told));
    const camtool_triangle wanted = {{0, 0, 200}, {200, 0, 200}, {200, 201, 200}};
    expect("a part", 0, memcmp(&wanted, &one, sizeof one));
    expect("its count", 1, (int32_t)told.triangles);
    expect("its rounded", 1, (int32_t)told.rounded);
    expect("a finer part", CAMTOOL_OK, read_part(text, 3, 0, &one, 1, &told));
    expect("a finer part", 2005, one.c.y);
    expect("its rounded", 0, (int32_t)told.rounded);
}

static void refused_part(const char *what, int32_t status, const char *text, int32_t unit,
                         int32_t snap, size_t room, camtool_reading wanted) {
    camtool_triangle lent[3];
    memset(lent, UNTOUCHED, sizeof lent);
    camtool_reading told = {UNTOUCHED, UNTOUCHED, UNTOUCHED};
    expect(what, status, read_part(text, unit, snap, lent, room, &told));
    expect(what, (int32_t)wanted.triangles, (int32_t)told.triangles);
    expect(what, (int32_t)wanted.rounded, (int32_t)told.rounded);
    expect(what, (int32_t)wanted.line, (int32_t)told.line);
    for (size_t i = 0; i < sizeof lent; i++)
        expect(what, UNTOUCHED, ((const uint8_t *)lent)[i]);
}

static void test_part_refusals(void) {
    const char *text = "solid s\n" ONE_FACET ONE_FACET "endsolid s\n";
    const camtool_reading nothing = {0, 0, 0}, two = {2, 2, 0};
    refused_part("no unit", CAMTOOL_UNIT, text, 1, 1, 2, nothing);
    refused_part("no snap", CAMTOOL_SNAP, text, 2, 2, 2, nothing);
    refused_part("no room", CAMTOOL_ROOM, text, 2, 1, 0, two);
    refused_part("little room", CAMTOOL_ROOM, text, 2, 1, 1, two);
    refused_part("much room", CAMTOOL_ROOM, text, 2, 1, 3, two);
    refused_part("a fine coordinate", CAMTOOL_COORDINATE, text, 2, 0, 2, (camtool_reading){0, 0, 6});
    refused_part("another word", CAMTOOL_WORD, "solid s\nface", 2, 1, 2, (camtool_reading){0, 0, 2});
    refused_part("no end", CAMTOOL_CUT_SHORT, "solid s\n\n", 2, 1, 2, (camtool_reading){0, 0, 3});
    refused_part("nothing", CAMTOOL_CUT_SHORT, "", 2, 1, 2, (camtool_reading){0, 0, 1});
}

static void test_runs(void) {
    const camtool_fiber fibers[] = {
        {1, 100, 100, -1000, 1000}, {2, 100, 100, 0, 1000}, {1, 100, 200, -1000, 1000}};
    uint64_t counts[3], told;
    camtool_run runs[2];
    expect("runs", CAMTOOL_OK,
           camtool_runs(PLATE, COUNT(PLATE), &FLAT, fibers, 3, counts, 3, runs, 2, &told));
    expect("runs along x", 1, (int32_t)counts[0]);
    expect("runs along y", 1, (int32_t)counts[1]);
    expect("runs over the plate", 0, (int32_t)counts[2]);
    expect("runs", 2, (int32_t)told);
    expect("runs along x", -149, runs[0].first);
    expect("runs along x", 349, runs[0].last);
    expect("runs along y", 0, runs[1].first);
    expect("runs along y", 349, runs[1].last);
}

static void refused_runs(const char *what, int32_t status, camtool_fiber fiber, size_t counts_room,
                         size_t room, uint64_t wanted) {
    uint64_t counts[2] = {UNTOUCHED, UNTOUCHED}, told = UNTOUCHED;
    camtool_run runs[2] = {{UNTOUCHED, UNTOUCHED}, {UNTOUCHED, UNTOUCHED}};
    expect(what, status,
           camtool_runs(PLATE, COUNT(PLATE), &FLAT, &fiber, 1, counts, counts_room, runs, room,
                        &told));
    expect(what, (int32_t)wanted, (int32_t)told);
    expect(what, UNTOUCHED, (int32_t)counts[0]);
    expect(what, UNTOUCHED, runs[0].first);
}

static void test_run_refusals(void) {
    const int32_t far = CAMTOOL_MAX_COORDINATE + 1;
    refused_runs("no room", CAMTOOL_ROOM, (camtool_fiber){1, 100, 100, -1000, 1000}, 1, 0, 1);
    refused_runs("much room", CAMTOOL_ROOM, (camtool_fiber){1, 100, 100, -1000, 1000}, 1, 2, 1);
    refused_runs("no counts", CAMTOOL_COUNTS_ROOM, (camtool_fiber){1, 100, 100, 0, 9}, 0, 1, 0);
    refused_runs("no axis", CAMTOOL_FIBER, (camtool_fiber){0, 100, 100, 0, 9}, 1, 1, 0);
    refused_runs("a third axis", CAMTOOL_FIBER, (camtool_fiber){3, 100, 100, 0, 9}, 1, 1, 0);
    refused_runs("a far line", CAMTOOL_FIBER, (camtool_fiber){1, far, 100, 0, 9}, 1, 1, 0);
    refused_runs("a high line", CAMTOOL_FIBER, (camtool_fiber){1, 100, far, 0, 9}, 1, 1, 0);
    refused_runs("a long stretch", CAMTOOL_FIBER, (camtool_fiber){1, 100, 100, 0, far}, 1, 1, 0);
    refused_runs("a stretch back", CAMTOOL_FIBER, (camtool_fiber){1, 100, 100, 9, 8}, 1, 1, 0);
}

static void test_maps(void) {
    const camtool_lattice lattice = {-150, 100, 100, 100, 249};
    int32_t heights[3] = {UNTOUCHED, UNTOUCHED, UNTOUCHED};
    uint64_t told = UNTOUCHED;
    expect("no room for nodes", CAMTOOL_ROOM,
           camtool_drop_map(PLATE, COUNT(PLATE), &FLAT, &lattice, 0, heights, 0, &told));
    expect("nodes", 3, (int32_t)told);
    expect("nodes", UNTOUCHED, heights[0]);
    expect("a map", CAMTOOL_OK,
           camtool_drop_map(PLATE, COUNT(PLATE), &FLAT, &lattice, 0, heights, 3, &told));
    expect("the first node", 0, heights[0]);
    expect("the next node", 200, heights[1]);
    expect("the last node", 200, heights[2]);
    expect("nodes", 3, (int32_t)told);
}

static void refused_lattice(const char *what, int32_t status, camtool_lattice lattice) {
    int32_t height = UNTOUCHED;
    uint64_t nodes = UNTOUCHED;
    expect(what, status,
           camtool_drop_map(PLATE, COUNT(PLATE), &FLAT, &lattice, 0, &height, 1, &nodes));
    expect(what, 0, (int32_t)nodes);
    expect(what, UNTOUCHED, height);
    camtool_chain chain = {UNTOUCHED, UNTOUCHED};
    camtool_point point = {UNTOUCHED, UNTOUCHED, UNTOUCHED};
    camtool_counts told = {UNTOUCHED, UNTOUCHED};
    expect(what, status,
           camtool_waterline(PLATE, COUNT(PLATE), &FLAT, 100, &lattice, &chain, 1, &point, 1,
                             &told));
    expect(what, 0, (int32_t)told.chains);
    expect(what, UNTOUCHED, (int32_t)chain.points);
    expect(what, UNTOUCHED, point.x);
}

static void test_lattices(void) {
    const int32_t far = CAMTOOL_MAX_COORDINATE + 1;
    refused_lattice("a far end", CAMTOOL_LATTICE, (camtool_lattice){0, 0, far, 0, 1});
    refused_lattice("ends the wrong way round", CAMTOOL_LATTICE, (camtool_lattice){0, 1, 0, 0, 1});
    refused_lattice("no step", CAMTOOL_LATTICE, (camtool_lattice){0, 0, 1, 1, 0});
    refused_lattice("many nodes", CAMTOOL_TOO_MANY_NODES, (camtool_lattice){0, 0, 2000, 2000, 1});
}

/* One node of the plate is blocked, and the four about it are free. */
static void test_waterlines(void) {
    const camtool_lattice lattice = {-500, -500, 700, 700, 600};
    camtool_chain chain = {UNTOUCHED, UNTOUCHED};
    camtool_point points[4];
    camtool_counts told;
    expect("no room for chains", CAMTOOL_ROOM,
           camtool_waterline(PLATE, COUNT(PLATE), &FLAT, 100, &lattice, &chain, 1, points, 3,
                             &told));
    expect("chains", 1, (int32_t)told.chains);
    expect("points", 4, (int32_t)told.points);
    expect("chains", UNTOUCHED, (int32_t)chain.points);
    expect("a waterline", CAMTOOL_OK,
           camtool_waterline(PLATE, COUNT(PLATE), &FLAT, 100, &lattice, &chain, 1, points, 4,
                             &told));
    expect("its points", 4, (int32_t)chain.points);
    expect("its end", 1, (int32_t)chain.closed);
    const camtool_point wanted[] = {
        {-150, 100, 100}, {100, -150, 100}, {350, 100, 100}, {100, 350, 100}};
    expect("its points", 0, memcmp(wanted, points, sizeof points));
    expect("a far waterline", CAMTOOL_HEIGHT,
           camtool_waterline(PLATE, COUNT(PLATE), &FLAT, CAMTOOL_MAX_COORDINATE + 1, &lattice,
                             &chain, 1, points, 4, &told));
}

#define JOB_OVER(area, more)                                                                        \
    "cutter = \"flat\"\nradius = 150\nfloor = 0\ntop = 300\nclear = 400\narea = " area "\n"           \
    "home = [100, 100]\npitch = 100\nsample = 50\nallowance = 0\nband = 0\n" more

#define PLATE_FACETS                                                                                \
    "facet normal 0 0 1\nouter loop\nvertex 0 0 2\nvertex 2 0 2\nvertex 2 2 2\nendloop\n"          \
    "endfacet\nfacet normal 0 0 1\nouter loop\nvertex 0 0 2\nvertex 2 2 2\nvertex 0 2 2\n"         \
    "endloop\nendfacet\n"

static const char JOB[] = JOB_OVER("[0, 0, 200, 200]", "");
static const char FACETS[] = "solid s\n" ONE_FACET "endsolid s\n";
static const char WHOLE_PLATE[] = "solid s\n" PLATE_FACETS "endsolid s\n";

static int32_t verified(const char *job, const char *part, const char *program,
                        camtool_verdict *told) {
    memset(told, UNTOUCHED, sizeof *told);
    return camtool_verify((const uint8_t *)job, strlen(job), (const uint8_t *)part, strlen(part),
                          (const uint8_t *)program, strlen(program), told);
}

static void test_verdicts(void) {
    camtool_verdict told;
    expect("a program", CAMTOOL_OK,
           verified(JOB, FACETS, "G21 G90\nG1 Z2\nG0 Z4\nM2\n", &told));
    expect("its verdict", CAMTOOL_TEST_LEFT, told.test);
    expect("its row", 1, (int32_t)told.row);
    expect("its column", 0, (int32_t)told.column);
    expect("its top", 200, told.top);
    expect("a gouge", CAMTOOL_OK, verified(JOB, FACETS, "G21 G90\nG1 Z1.99\nM2\n", &told));
    expect("its test", CAMTOOL_TEST_GOUGE, told.test);
    expect("its move", 0, (int32_t)told.at);
    expect("its triangle", 0, (int32_t)told.triangle);
    expect("its depth", 8, (int32_t)told.depth);
    expect("its leaf", 254, (int32_t)told.leaf);
    expect("its line", 0, (int32_t)told.line);
}

/* A box beside the cutter in the middle of the plate touches it, and one a unit nearer is hit; a holder
 * is wider. */
static void test_fixtures(void) {
    const char *down = "G21 G90\nG1 Z2\nG0 Z4\nM2\n";
    camtool_verdict told;
    expect("a box beside", CAMTOOL_OK,
           verified(JOB_OVER("[0, 0, 200, 200]", "keep_out = [[250, 0, 400, 200, 400]]\n"), FACETS,
                    down, &told));
    expect("a box beside", CAMTOOL_TEST_LEFT, told.test);
    expect("no box", 0, (int32_t)told.fixture);
    expect("a box in the way", CAMTOOL_OK,
           verified(JOB_OVER("[0, 0, 200, 200]",
                             "keep_out = [[250, 0, 400, 200, 400], [249, 0, 400, 200, 400]]\n"),
                    FACETS, down, &told));
    expect("a box in the way", CAMTOOL_TEST_FIXTURE, told.test);
    expect("its move", 0, (int32_t)told.at);
    expect("its box", 1, (int32_t)told.fixture);
    expect("its triangle", 0, (int32_t)told.triangle);
    expect("a box under the holder", CAMTOOL_OK,
           verified(JOB_OVER("[0, 0, 200, 200]",
                             "keep_out = [[250, 0, 400, 200, 400]]\nholder_radius = 200\n"
                             "stickout = 150\n"),
                    FACETS, down, &told));
    expect("a box under the holder", CAMTOOL_TEST_HOLDER_FIXTURE, told.test);
    expect("its box", 0, (int32_t)told.fixture);
}

static void refused_text(const char *what, int32_t status, const char *job, const char *part,
                         const char *program, uint64_t line, int32_t height) {
    camtool_verdict told;
    expect(what, status, verified(job, part, program, &told));
    expect(what, (int32_t)line, (int32_t)told.line);
    expect(what, height, told.height);
    expect(what, 0, told.test);
    expect(what, 0, (int32_t)told.moves);
}

static void test_verdict_refusals(void) {
    const char *program = "G21 G90\nM2\n", *high = "solid s\n" HIGH_FACET "endsolid s\n";
    refused_text("no job", CAMTOOL_JOB_MISSING, "", FACETS, program, 0, 0);
    refused_text("a job that is none", CAMTOOL_JOB_SYNTAX, "cutter", FACETS, program, 0, 0);
    refused_text("no part", CAMTOOL_CUT_SHORT, JOB, "", program, 1, 0);
    refused_text("a high part", CAMTOOL_PART_TOP, JOB, high, "", 0, 301);
    refused_text("no program", CAMTOOL_PROGRAM, JOB, FACETS, "", 1, 0);
    refused_text("an arc", CAMTOOL_PROGRAM, JOB, FACETS, "G21 G90\n\nG2 X1\nM2\n", 3, 0);
}

static int32_t planned(const char *job, const char *part, uint8_t *program, size_t room,
                       camtool_planned *told) {
    memset(told, UNTOUCHED, sizeof *told);
    return camtool_plan((const uint8_t *)job, strlen(job), (const uint8_t *)part, strlen(part),
                        program, room, told);
}

static void expect_told(const char *what, camtool_planned wanted, camtool_planned told) {
    expect(what, (int32_t)wanted.bytes, (int32_t)told.bytes);
    expect(what, (int32_t)wanted.moves, (int32_t)told.moves);
    expect(what, (int32_t)wanted.columns, (int32_t)told.columns);
    expect(what, (int32_t)wanted.nodes, (int32_t)told.nodes);
    expect(what, (int32_t)wanted.at, (int32_t)told.at);
    expect(what, (int32_t)wanted.line, (int32_t)told.line);
    expect(what, wanted.most_left, told.most_left);
    expect(what, wanted.top, told.top);
    expect(what, wanted.height, told.height);
    expect(what, (int32_t)wanted.row, (int32_t)told.row);
    expect(what, (int32_t)wanted.column, (int32_t)told.column);
}

/* The plan of the plate, of which camtool says: planned moves 11 columns 9 left 0.00. */
static void test_plans(void) {
    uint8_t program[1024];
    camtool_planned told;
    memset(program, UNTOUCHED, sizeof program);
    expect("no room for a plan", CAMTOOL_ROOM, planned(JOB, WHOLE_PLATE, program, 0, &told));
    const camtool_planned wanted = {.bytes = told.bytes, .moves = 11, .columns = 9};
    expect_told("no room for a plan", wanted, told);
    const size_t bytes = (size_t)told.bytes;
    if (bytes == 0 || bytes >= sizeof program) {
        expect("a plan's bytes", 0, (int32_t)bytes);
        return;
    }
    expect("little room", CAMTOOL_ROOM, planned(JOB, WHOLE_PLATE, program, bytes - 1, &told));
    expect_told("little room", wanted, told);
    expect("much room", CAMTOOL_ROOM, planned(JOB, WHOLE_PLATE, program, bytes + 1, &told));
    for (size_t i = 0; i < sizeof program; i++)
        expect("no plan yet", UNTOUCHED, program[i]);
    expect("a plan", CAMTOOL_OK, planned(JOB, WHOLE_PLATE, program, bytes, &told));
    expect_told("a plan", wanted, told);
    for (size_t i = bytes; i < sizeof program; i++)
        expect("behind a plan", UNTOUCHED, program[i]);
    camtool_verdict said;
    expect("the verdict on a plan", CAMTOOL_OK,
           camtool_verify((const uint8_t *)JOB, strlen(JOB), (const uint8_t *)WHOLE_PLATE,
                          strlen(WHOLE_PLATE), program, bytes, &said));
    expect("the verdict on a plan", CAMTOOL_ACCEPTED, said.test);
    expect("its moves", 11, (int32_t)said.moves);
}

static void refused_plan(const char *what, int32_t status, const char *job, const char *part,
                         camtool_planned wanted) {
    uint8_t program[2] = {UNTOUCHED, UNTOUCHED};
    camtool_planned told;
    expect(what, status, planned(job, part, program, 2, &told));
    expect_told(what, wanted, told);
    expect(what, UNTOUCHED, program[0]);
    expect(what, UNTOUCHED, program[1]);
}

static void test_plan_refusals(void) {
    const camtool_planned nothing = {0};
    refused_plan("no job", CAMTOOL_JOB_MISSING, "", FACETS, nothing);
    refused_plan("a job that is none", CAMTOOL_JOB_SYNTAX, "cutter", FACETS, nothing);
    refused_plan("no part", CAMTOOL_CUT_SHORT, JOB, "", (camtool_planned){.line = 1});
    refused_plan("a spindle without a feed", CAMTOOL_JOB_MISSING,
                 JOB_OVER("[0, 0, 200, 200]", "spindle = true\n"), "", nothing);
    refused_plan("a high part", CAMTOOL_PART_TOP, JOB, "solid s\n" HIGH_FACET "endsolid s\n",
                 (camtool_planned){.height = 301});
    refused_plan("a fine raster", CAMTOOL_TOO_MANY_NODES,
                 JOB_OVER("[0, 0, 2000, 2000]", "raster = 1\n"), WHOLE_PLATE,
                 (camtool_planned){.nodes = 2001 * 2001});
    refused_plan("a narrow corner", CAMTOOL_UNCUT, JOB, FACETS,
                 (camtool_planned){.row = 1, .column = 0, .top = 200});
}

int main(void) {
    test_drops();
    test_nothing();
    test_refusals();
    test_parts();
    test_part_refusals();
    test_runs();
    test_run_refusals();
    test_maps();
    test_lattices();
    test_waterlines();
    test_verdicts();
    test_fixtures();
    test_verdict_refusals();
    test_plans();
    test_plan_refusals();
    return failed != 0;
}
