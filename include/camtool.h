/* The library of camtool: its proved calls, for C.
 *
 * Lengths are whole units of the caller's choice: 0.01 mm or 0.001 mm are those of camtool's own
 * texts. A coordinate's magnitude is at most CAMTOOL_MAX_COORDINATE. A text is as many bytes as its
 * count says, with no zero behind them: any bytes, or none.
 *
 * Each call tests its arguments, answers a status, and keeps nothing for the next call. With status
 * CAMTOOL_OK the arrays that the caller has lent have the results; with any other they are as they
 * were, and what else is told is said at the call.
 * What is proved of a call is what is said here, for callers that keep to these, which no call can
 * test:
 *
 * - A pointer is never null, not even where the count that follows it is 0, is aligned as its type
 *   wants, and leads to as many elements as the count says.
 * - Nothing that a call writes, an array or what is told, overlaps another of its arguments.
 * - Nothing else writes an argument while the call runs, nor reads what it writes. Calls on
 *   arguments of their own may run at the same time.
 * - malloc, realloc and free are those of one allocator. A call comes from no signal handler, and
 *   not from the child of a fork of a process with threads.
 */
#ifndef CAMTOOL_H
#define CAMTOOL_H

#include <stddef.h>
#include <stdint.h>

#ifdef __cplusplus
extern "C" {
#endif

/* The greatest magnitude of a coordinate, and of a floor. */
#define CAMTOOL_MAX_COORDINATE 524287

/* How a call ends. Where several arguments are wrong, the status tells of one of them. */
enum camtool_status {
    /* The results are written. */
    CAMTOOL_OK = 0,
    /* There was not enough memory. */
    CAMTOOL_MEMORY = 1,
    /* The cutter is of no kind, or its radius or its slope is out of range. */
    CAMTOOL_CUTTER = 2,
    /* The holder's radius or its stickout is out of range. */
    CAMTOOL_HOLDER = 3,
    /* A coordinate of a triangle is out of range. */
    CAMTOOL_TRIANGLE = 4,
    /* There are more triangles than 32 bits number. */
    CAMTOOL_TOO_MANY_TRIANGLES = 5,
    /* A coordinate of a place is out of range. */
    CAMTOOL_PLACE = 6,
    /* The floor is out of range. */
    CAMTOOL_FLOOR = 7,
    /* The array for the results is not as long as they are many. */
    CAMTOOL_ROOM = 8,
    /* The number of the unit is neither 2 nor 3. */
    CAMTOOL_UNIT = 9,
    /* The number that says how a coordinate between two units is read is neither 0 nor 1. */
    CAMTOOL_SNAP = 10,
    /* A word of a part's text is another one than the form has there. */
    CAMTOOL_WORD = 11,
    /* A word in a coordinate's place of a part's text is refused as a decimal. */
    CAMTOOL_COORDINATE = 12,
    /* A part's text has more than 200,000 triangles. */
    CAMTOOL_LONG_TEXT = 13,
    /* A part's text ends before its first solid, or within a solid. */
    CAMTOOL_CUT_SHORT = 14,
    /* A number of a fiber is out of range, or its first position is after its last. */
    CAMTOOL_FIBER = 15,
    /* The array for the counts is not as long as the fibers are many. */
    CAMTOOL_COUNTS_ROOM = 16,
    /* A job's text is no TOML document, or isn't UTF-8. */
    CAMTOOL_JOB_SYNTAX = 17,
    /* A job's text has a key that no job has. */
    CAMTOOL_JOB_UNKNOWN = 18,
    /* A job's text lacks a key. */
    CAMTOOL_JOB_MISSING = 19,
    /* The value at a key of a job's text is of another type. */
    CAMTOOL_JOB_KIND = 20,
    /* The value at a key of a job's text is out of its range. */
    CAMTOOL_JOB_RANGE = 21,
    /* The values at two keys of a job's text don't fit together. */
    CAMTOOL_JOB_RELATION = 22,
    /* The part's greatest height is over the job's top. */
    CAMTOOL_PART_TOP = 23,
    /* A program's text is refused. */
    CAMTOOL_PROGRAM = 24,
    /* The height of a waterline is out of range. */
    CAMTOOL_HEIGHT = 25,
    /* An end of the lattice is out of range, its ends are the wrong way round, or its step is under a
     * unit. */
    CAMTOOL_LATTICE = 26,
    /* The lattice, or one that the paths of a plan go over, has more than 4,000,000 nodes. */
    CAMTOOL_TOO_MANY_NODES = 27,
    /* A plan has more than 1,000,000 moves. */
    CAMTOOL_TOO_MANY_MOVES = 28,
    /* A plan leaves a column of the stock higher than it may. */
    CAMTOOL_UNCUT = 29,
    /* On a move of a plan the holder would touch what the moves before it left of a column. */
    CAMTOOL_HELD = 30
};

/* What a cutter is. */
enum camtool_kind { CAMTOOL_FLAT = 1, CAMTOOL_BALL = 2, CAMTOOL_CONE = 3 };

/* A corner. */
typedef struct camtool_point {
    int32_t x;
    int32_t y;
    int32_t z;
} camtool_point;

/* A triangle of a part: nine numbers in a row, so that an array of corner coordinates, nine for
 * each triangle, may be given by a cast. Equal or collinear corners are allowed: such a triangle
 * stands for its point or its edges. */
typedef struct camtool_triangle {
    camtool_point a;
    camtool_point b;
    camtool_point c;
} camtool_triangle;

/* A place seen from above: two numbers. */
typedef struct camtool_place {
    int32_t x;
    int32_t y;
} camtool_place;

/* A tool, located by the tip of its cutter: the cutter, and its holder if it has one. */
typedef struct camtool_tool {
    /* One of camtool_kind. */
    int32_t kind;
    /* The radius of the cutter's shank, from 1 to 10000. */
    int32_t radius;
    /* How far a cone rises over each run, from 1 to 100, and at most 16 times the run. Only a cone's
     * rise and run are looked at. */
    int32_t rise;
    /* The run of a cone, from 1 to 100. */
    int32_t run;
    /* The radius of the holder, a cylinder, from 1 to 10000; 0, with a stickout of 0, for none. */
    int32_t holder_radius;
    /* How far the holder's lower face is over the cutter's tip, from 1 to 524287. */
    int32_t stickout;
} camtool_tool;

/* What a reading of a part's text came to. What isn't told is 0. */
typedef struct camtool_reading {
    /* How many triangles the part has. */
    uint64_t triangles;
    /* How many of their coordinates were rounded. */
    uint64_t rounded;
    /* The line of the text's first fault, counted from 1; each LF ends one. */
    uint64_t line;
} camtool_reading;

/* Reads a part from a text of ASCII STL: its triangles, of which there are at most 200,000, in the
 * order of the text. The unit says how many decimals of a millimetre stand for whole units: 2 for
 * 0.01 mm, 3 for 0.001 mm. The snap says how a coordinate between two units is read: 0 refuses it, 1
 * rounds it to the nearest. The array is as long as the part has triangles: with another length, as
 * 0, the status is CAMTOOL_ROOM and told has their count. told is written with every status. */
int32_t camtool_read_part(const uint8_t *text, size_t text_count, int32_t unit, int32_t snap,
                          camtool_triangle *triangles, size_t triangles_count,
                          camtool_reading *told);

/* Drop heights: for each place the least whole height, from the floor on, at which the tool with
 * its tip there doesn't gouge the part of these triangles, neither by its cutter nor by its holder,
 * exactly. They are written to heights in the order of the places, whose count is that of heights. */
int32_t camtool_drop_heights(const camtool_triangle *triangles, size_t triangles_count,
                             const camtool_tool *tool, const camtool_place *places,
                             size_t places_count, int32_t floor, int32_t *heights,
                             size_t heights_count);

/* A line along an axis, at one height, and a stretch of it: where the tip of a tool is pushed. Its
 * positions are the coordinates along the axis. */
typedef struct camtool_fiber {
    /* 1 for a line along x, 2 for one along y. */
    int32_t axis;
    /* The other one of the coordinates x and y. */
    int32_t at;
    int32_t z;
    /* The first position of the stretch. */
    int32_t first;
    /* The last one, which isn't before the first. */
    int32_t last;
} camtool_fiber;

/* The positions from first to last, with both of them. */
typedef struct camtool_run {
    int32_t first;
    int32_t last;
} camtool_run;

/* Runs along fibers: for each fiber the maximal runs of whole positions from its first to its last
 * at which the tool, with its tip there, gouges the part of these triangles, ascending. counts has
 * how many runs each fiber has, and runs all of them, fiber after fiber. counts is as long as
 * fibers: with another length the status is CAMTOOL_COUNTS_ROOM. runs is as long as the runs are
 * many: with another length, as 0, the status is CAMTOOL_ROOM. told is written with every status:
 * with CAMTOOL_OK and CAMTOOL_ROOM it is their number, and else 0. */
int32_t camtool_runs(const camtool_triangle *triangles, size_t triangles_count,
                     const camtool_tool *tool, const camtool_fiber *fibers, size_t fibers_count,
                     uint64_t *counts, size_t counts_count, camtool_run *runs, size_t runs_count,
                     uint64_t *told);

/* The nodes over an area: the positions in x are x0, x0 + step, x0 + 2 * step and so on up to x1, and
 * x1 itself where it isn't one of them; likewise in y. Each x with each y is a node. */
typedef struct camtool_lattice {
    int32_t x0;
    int32_t y0;
    int32_t x1;
    int32_t y1;
    /* At least one unit. */
    int32_t step;
} camtool_lattice;

/* Drop heights over a lattice: those of camtool_drop_heights at each node, row by row with y
 * ascending, and with x ascending along each row. heights is as long as the lattice has nodes, of
 * which there are at most 4,000,000: with another length, as 0, the status is CAMTOOL_ROOM. told is
 * written with every status: with CAMTOOL_OK and CAMTOOL_ROOM it is the number of nodes, and else 0. */
int32_t camtool_drop_map(const camtool_triangle *triangles, size_t triangles_count,
                         const camtool_tool *tool, const camtool_lattice *lattice, int32_t floor,
                         int32_t *heights, size_t heights_count, uint64_t *told);

/* A chain of a waterline, beside its points. */
typedef struct camtool_chain {
    /* How many points it has. */
    uint64_t points;
    /* 1 where its last point is joined to its first, and else 0. */
    uint64_t closed;
} camtool_chain;

/* How many chains a waterline has, and how many points these have together. */
typedef struct camtool_counts {
    uint64_t chains;
    uint64_t points;
} camtool_counts;

/* A waterline at height z: the chains of the places between nodes of the lattice at which the tool
 * gouges the part of these triangles and neighbours at which it doesn't, each at the last free place
 * before the blocked ones, which are on the left of the way. The way from one place to the next isn't
 * looked at. chains has how many points each chain has, in the order of their first points, and
 * points all of them, chain after chain. Both are as long as these are many: with another length, as
 * 0, the status is CAMTOOL_ROOM. told is written with every status: with CAMTOOL_OK and CAMTOOL_ROOM
 * it has both numbers, and else two zeros. */
int32_t camtool_waterline(const camtool_triangle *triangles, size_t triangles_count,
                          const camtool_tool *tool, int32_t z, const camtool_lattice *lattice,
                          camtool_chain *chains, size_t chains_count, camtool_point *points,
                          size_t points_count, camtool_counts *told);

/* Which test of a program fails first: of a move, or after the last one. Those of a move come in the
 * order floor, gouge, holder, fixture, holder fixture, rapid, cut, holder stock. */
enum camtool_test {
    /* None: the program is accepted. */
    CAMTOOL_ACCEPTED = 0,
    /* The move stays over the floor. */
    CAMTOOL_TEST_FLOOR = 1,
    /* On the move the cutter passes each triangle of the part. */
    CAMTOOL_TEST_GOUGE = 2,
    /* On the move the holder passes each triangle of the part. */
    CAMTOOL_TEST_HOLDER = 3,
    /* The move, a rapid, passes what is left of the stock. */
    CAMTOOL_TEST_RAPID = 4,
    /* The move, a feed, cuts no deeper than the job's max_cut. */
    CAMTOOL_TEST_CUT = 5,
    /* On the move the holder passes what is left of the stock. */
    CAMTOOL_TEST_HOLDER_STOCK = 6,
    /* After the last move each column stands at most the allowance over what covers it. */
    CAMTOOL_TEST_LEFT = 7,
    /* On the move the cutter passes each fixture, a box of the job's keep_out. */
    CAMTOOL_TEST_FIXTURE = 8,
    /* On the move the holder passes each fixture. */
    CAMTOOL_TEST_HOLDER_FIXTURE = 9
};

/* What is said of a program, or what is told of a text that is refused. What isn't told is 0. Moves,
 * triangles, fixtures, rows and columns are counted from 0, and lengths are in the job's unit. */
typedef struct camtool_verdict {
    /* One of camtool_test. */
    int32_t test;
    /* How much is left at most on a column of an accepted program, over what covers it. */
    int32_t most_left;
    /* The top of the column that is left too high. */
    int32_t top;
    /* The greatest height of a part that is over the job's top. */
    int32_t height;
    /* The triangle that the move doesn't pass. */
    uint32_t triangle;
    /* The row and the column of the column of stock that the move doesn't pass, or that is left too
     * high. */
    uint32_t row;
    uint32_t column;
    /* The segment of the move that is blocked: from the moment leaf / 2^depth to
     * (leaf + 1) / 2^depth of the move. */
    uint32_t depth;
    uint64_t leaf;
    /* The move that fails. */
    uint64_t at;
    /* How many moves an accepted program has. */
    uint64_t moves;
    /* How many columns the stock has, where the program is accepted. */
    uint64_t columns;
    /* The line of a refused text's first fault, counted from 1; each LF ends one. It is told of a
     * part's text and of a program's. */
    uint64_t line;
    /* The fixture that the move doesn't pass: the number of its box in the job's keep_out. */
    uint32_t fixture;
} camtool_verdict;

/* The verdict on a program for a job and a part, each by its text: a TOML document, an ASCII STL and
 * a G-code (docs/FORMATS.md). It is the one that the command verify prints: the first test that
 * fails, or that the program is accepted; what it says is exact. With status CAMTOOL_OK told has the
 * verdict, which may be a rejection. The first text that is refused gives the status: the job's,
 * the part's, which is read in the job's unit and by its snap, and then the program's, which is read
 * from the job's home, in its unit, and by its rapids, start and spindle. told is written with
 * every status. */
int32_t camtool_verify(const uint8_t *job, size_t job_count, const uint8_t *part,
                       size_t part_count, const uint8_t *program, size_t program_count,
                       camtool_verdict *told);

/* What is told of a plan, or of why there is none. What isn't told is 0. Moves, rows and columns are
 * counted from 0, and lengths are in the job's unit. */
typedef struct camtool_planned {
    /* How many bytes the program's text has. */
    uint64_t bytes;
    /* How many moves the program has. */
    uint64_t moves;
    /* How many columns the stock has. */
    uint64_t columns;
    /* How many nodes the lattice has that has too many. */
    uint64_t nodes;
    /* The move on which the holder would touch a column. */
    uint64_t at;
    /* The line of the part's first fault, counted from 1; each LF ends one. */
    uint64_t line;
    /* How much the program leaves at most on a column, over what covers it. */
    int32_t most_left;
    /* The top of the column that the plan leaves too high. */
    int32_t top;
    /* The greatest height of a part that is over the job's top. */
    int32_t height;
    /* The row and the column of the column of stock that is left too high, or that the holder would
     * touch. */
    uint32_t row;
    uint32_t column;
} camtool_planned;

/* The text of the program that the planner writes for a job and a part, each by its text, as in
 * camtool_verify: the one that the command plan stores. camtool_verify accepts it with the same job
 * and part, with the numbers of moves and columns and the most left that are told. A job that asks for
 * a spindle has no plan, since a plan names no feed: the status is CAMTOOL_JOB_MISSING, before the
 * part's text is looked at. program is as long as the text has bytes: with another length, as 0, the
 * status is CAMTOOL_ROOM. Each call plans anew, so a caller that doesn't know the length plans twice.
 * told is written with every status: with CAMTOOL_OK and CAMTOOL_ROOM it has the program's numbers,
 * with a refused part's the line or the height, and with CAMTOOL_TOO_MANY_NODES, CAMTOOL_UNCUT and
 * CAMTOOL_HELD what they speak of. */
int32_t camtool_plan(const uint8_t *job, size_t job_count, const uint8_t *part, size_t part_count,
                     uint8_t *program, size_t program_count, camtool_planned *told);

#ifdef __cplusplus
}
#endif

#endif
