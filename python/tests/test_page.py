"""Tests of camtool.page: the map, the path, what is found, and the page that is made of it."""
import array
import base64
import html.parser
import json
import re
import types
import unittest
from unittest import mock

import made
from camtool import page, page_findings, page_map, page_path, page_read, page_view, texts
from camtool.page_solid import Near, Shape, hit_at, hit_of, hit_on, nearest_in, steepness_of
from camtool.texts import Move

FLAT = {"cutter": "flat", "radius": 300}
BALL = {"cutter": "ball", "radius": 300}
CONE = {"cutter": "cone", "radius": 300, "rise": 3, "run": 5}
WALL = ((500, -1000, 0), (500, -1000, 800), (500, 1000, 800))
GROUND = ((-1000, -1000, 0), (1000, -1000, 0), (1000, 1000, 0))


class Solid(unittest.TestCase):
    def test_a_cutter_is_as_wide_at_a_height_as_it_is_high_at_that_width(self):
        for keys in (BALL, CONE):
            shape = Shape(keys)
            for distance in (10, 100, 250, 300):
                self.assertAlmostEqual(shape.reach(shape.height(distance)), distance)
            self.assertEqual(round(shape.outline()[-1][0]), 300)
        self.assertEqual((Shape(FLAT).reach(0), Shape(FLAT).height(299)), (300, 0))

    def test_how_far_a_wall_reaches_into_a_tool(self):
        for tip, side in (((0, 0, 100), None), ((200, 0, 100), None), ((250, 0, 100), 50), ((250, 0, 900), None)):
            hit = hit_of(Shape(FLAT), tip, WALL)
            self.assertEqual(hit and round(hit.side), side, tip)
        self.assertEqual(steepness_of(WALL), 1)

    def test_how_far_the_ground_reaches_into_a_tool(self):
        for keys in (FLAT, BALL, CONE):
            self.assertEqual(round(hit_of(Shape(keys), (0, -500, -40), GROUND).up), 40)
            self.assertIsNone(hit_of(Shape(keys), (0, -500, 0), GROUND))
        self.assertEqual(steepness_of(GROUND), 0)

    def test_of_equal_hits_the_steepest_is_told_and_the_farthest_on_a_way(self):
        level = ((500, -1000, 800), (900, -1000, 800), (500, 1000, 800))
        near = Near([level, WALL])
        self.assertEqual(hit_at(Shape(FLAT), (250, 0, 100), near).steepness, 1)
        hit = hit_on(Shape(FLAT), (0, 0, 100), (280, 0, 100), near)
        self.assertEqual((round(hit.side), tuple(map(round, hit.tip))), (80, (280, 0, 100)))
        self.assertIsNone(hit_on(Shape(FLAT), (0, 0, 100), (200, 0, 100), near))

    def test_the_nearest_place_of_a_triangle(self):
        for x, y, wanted in ((0, -500, (0, -500, 0)), (2000, 0, (1000, 0, 0)), (0, -3000, (0, -1000, 0))):
            self.assertEqual(tuple(map(round, nearest_in(list(GROUND), x, y))), wanted)

    def test_the_height_over_a_place(self):
        near = Near([GROUND, WALL, ((0, 0, 0), (100, 0, 100), (0, 100, 0))])
        self.assertEqual([near.height(*it) for it in ((50, 0), (50, -10), (-900, 900))], [50, 0, None])


class Map(unittest.TestCase):
    JOB = {"area": [0, 0, 100, 40], "pitch": 20, "floor": 0, "top": 50, "allowance": 5, "band": 20}

    def test_the_columns_and_the_step_with_which_they_are_stored(self):
        self.assertEqual(page_map.columns_of(self.JOB), (0, 0, 20, 6, 3))
        self.assertEqual(page_map.shown_step(self.JOB), 1)
        wide = {**self.JOB, "area": [0, 0, 20_000, 20_000]}
        self.assertEqual(page_map.shown_step(wide), 4)
        self.assertLessEqual(2 * (page_map.columns_of(wide, 4).along - 1) ** 2, page_map.MOST)

    def test_the_tops_that_a_surface_tells(self):
        columns = page_map.Columns(-20, 0, 20, 2, 2)
        text = b"vertex -0.20 0.00 0.10\nvertex 0.00 0.00 -0.05\nvertex 0.00 0.20 1.00\nvertex -0.20 0.20 0.30\n"
        self.assertEqual(list(page_map.tops_of(text, columns)), [10, -5, 30, 100])
        self.assertIsNone(page_map.tops_of(text[:60], columns))

    def test_the_heights_of_a_part(self):
        columns = page_map.columns_of(self.JOB)
        step = [((40, 0, 30), (100, 0, 30), (100, 40, 30)), ((40, 0, 30), (100, 40, 30), (40, 40, 30)), ((40, 0, 0), (40, 0, 30), (40, 40, 30))]
        self.assertEqual(list(page_map.part_heights(step, columns, 0)), [0, 0, 30, 30, 30, 30] * 3)
        slope = [((0, 0, 0), (100, 0, 100), (0, 40, 0)), ((100, 0, 100), (100, 40, 100), (0, 40, 0))]
        self.assertEqual(list(page_map.part_heights(slope, columns, 0)), [0, 20, 40, 60, 80, 100] * 3)
        self.assertEqual(list(page_map.part_heights(slope, columns, 50))[:6], [50, 50, 50, 60, 80, 100])

    def test_what_covers_a_column(self):
        columns = page_map.Columns(0, 0, 10, 7, 5)
        heights = array.array("i", [0] * 35)
        heights[2 * 7 + 3] = 9
        for band, count in ((0, 1), (9, 1), (10, 5), (15, 9), (20, 13)):
            cover = page_map.covers(heights, columns, band)
            wanted = [9 if (at % 7 - 3) ** 2 + (at // 7 - 2) ** 2 <= (band / 10) ** 2 else 0 for at in range(35)]
            self.assertEqual((list(cover), sum(map(bool, cover))), (wanted, count))

    def test_what_a_column_is_shown_as(self):
        columns = page_map.Columns(0, 0, 20, 6, 1)
        heights = array.array("i", [0, 0, 30, 30, 30, 30])
        tops = array.array("i", [50, 30, 30, 32, 40, 20])
        kinds = page_map.kinds_of(tops, heights, columns, self.JOB, True, None)
        self.assertEqual(list(kinds), [page_map.FULL, page_map.HIDDEN, page_map.WANTED, page_map.WANTED, page_map.HIGH, page_map.CUT])
        told = page_map.kinds_of(tops, heights, columns, self.JOB, True, {1})
        self.assertEqual(list(told), [page_map.HIDDEN, page_map.HIGH, page_map.WANTED, page_map.WANTED, page_map.HIDDEN, page_map.CUT])
        accepted = page_map.kinds_of(tops, heights, columns, self.JOB, False, None)
        self.assertLessEqual(set(accepted), {page_map.WANTED, page_map.HIDDEN})

    def test_what_an_overcut_allows_is_not_shown_as_cut_into(self):
        columns = page_map.Columns(0, 0, 20, 7, 5)
        # The part is 30 high from x 39 on: the columns at 40 stand in its wall by one unit.
        height_at = lambda x, y: None if x < 0 else 30 if x >= 39 else 0
        heights = array.array("i", [height_at(20 * (at % 7), 0) for at in range(35)])
        for tops, overcut, wanted in (
                ([0, 0, 0, 30, 30, 30, 30], 1, {page_map.WANTED}), ([0, 0, 0, 0, 30, 30, 30], 1, {page_map.WANTED, page_map.CUT}),
                ([0, 0, 0, 22, 22, 22, 22], 8, {page_map.WANTED}), ([0, 0, 30, 21, 30, 30, 30], 8, {page_map.WANTED, page_map.CUT})):
            tops = array.array("i", tops * 5)
            kinds = page_map.kinds_of(tops, heights, columns, self.JOB, True, None)
            self.assertIn(page_map.CUT, kinds)
            page_map.spare(kinds, tops, heights, columns, overcut, height_at)
            self.assertEqual(set(kinds), wanted, tops)

    def test_pieces_of_neighbours(self):
        columns = page_map.columns_of(self.JOB)
        self.assertEqual(page_map.pieces_of(columns, [0, 7, 14, 5, 12]), [[0, 7, 12, 14], [5]])


class Path(unittest.TestCase):
    def moves(self, places, kind="feed"):
        return [Move(number + 1, kind, one, other) for number, (one, other) in enumerate(zip(places, places[1:]))]

    def test_a_short_program_is_drawn_move_by_move(self):
        ways, tolerance = page_path.ways_of([self.moves([(0, 0, 0), (10, 0, 0), (20, 0, 0)])], set())
        self.assertEqual((len(ways), tolerance), (2, None))

    def test_moves_that_go_on_straight_are_one_way_but_for_those_that_are_kept(self):
        moves = self.moves([(10 * it, 0, 0) for it in range(9)] + [(80, 50, 0)])
        ways = page_path.joined(moves, 0, {4}, 1)
        self.assertEqual([(it.first, it.last) for it in ways], [(1, 4), (5, 5), (6, 8), (9, 9)])
        self.assertEqual([it.end for it in ways], [(40, 0, 0), (50, 0, 0), (80, 0, 0), (80, 50, 0)])

    def test_a_long_program_is_thinned(self):
        # (rows of a hundred short moves, there and back)
        places = [((it % 200 if it % 200 <= 100 else 200 - it % 200) * 10, it // 100, 0) for it in range(100_001)]
        ways, tolerance = page_path.ways_of([self.moves(places)], {(0, 77)})
        self.assertLess(len(ways), page_path.MOST)
        self.assertGreaterEqual(tolerance, 1)
        self.assertIn(78, [it.first for it in ways if it.first == it.last])


class Findings(unittest.TestCase):
    def measured(self, move, test, way, amount):
        item = page_read.Item(0, test, move, move + 10, "", None, None, None, None)
        return page_findings.Measured(item, way, amount, None)

    def test_how_deep_a_move_comes_into_stock(self):
        seen = mock.Mock(job={"top": 500})
        job = {**FLAT, "holder_radius": 600, "stickout": 300}
        down, across = Move(1, "rapid", (0, 0, 800), (0, 0, 100)), Move(1, "rapid", (-900, 0, 400), (900, 0, 200))
        table = (
            ("rapid", down, (200, 0, 450), 350), ("rapid", down, (200, 0, None), 400), ("holder-stock", down, (500, 0, 450), 50),
            ("rapid", across, (0, 0, 350), 83))
        # (at two places it comes as near, or it stays level with the column's top)
        table += (("rapid", Move(1, "rapid", (0, 0, 100), (0, 0, 100)), (0, 0, 100), 0), ("rapid", Move(1, "rapid", (0, 0, 700), (0, 0, 700)), (0, 0, 100), 0))
        for test, move, column, deep in table:
            item = page_read.Item(0, test, 0, 1, "", (move.start, move.end), None, (0, 0, *column), None)
            found = page_findings.measured_stock(seen, job, item, move)
            self.assertAlmostEqual(found.amount, deep, delta=4)

    def test_lines_as_ranges(self):
        table = (
            ([3], "3"), ([3, 4, 5], "3 to 5"), ([9, 3, 4], "3 to 4 and 9"), ([1, 3, 5], "1, 3 and 5"),
            (range(1, 40, 2), "1 to 39, in 20 stretches"))
        for numbers, wanted in table:
            self.assertEqual(page_findings.ranges_of(numbers), wanted)

    def test_one_cause_is_one_group(self):
        one = self.measured
        found = page_findings.grouped([
            one(1, "gouge", "side", 50), one(2, "gouge", "side", 48), one(3, "gouge", "deep", 10), one(40, "gouge", "side", 51),
            one(41, "gouge", "side", 300), one(60, "rapid", "stock", 50), one(61, "gouge", "touch", 2), one(99, "gouge", "touch", 4)])
        self.assertEqual([[it.item.move for it in group] for group in found], [[1, 2, 40], [3], [41], [60], [61, 99]])


class Outline(html.parser.HTMLParser):
    """A page's title, its data, the texts of its list of findings, and the names of other files in it."""

    VOID = ("meta", "input", "br", "circle", "path")

    def __init__(self, text):
        super().__init__()
        self.stack, self.title, self.data, self.said, self.names = [], "", "", [], []
        self.feed(text)

    def handle_starttag(self, tag, attributes):
        if tag not in self.VOID:
            self.stack.append((tag, dict(attributes)))
        self.names += [value for name, value in attributes if name in ("src", "href")]

    def handle_endtag(self, tag):
        if tag not in self.VOID:
            assert self.stack.pop()[0] == tag, (tag, self.getpos())

    def handle_data(self, text):
        tag, attributes = self.stack[-1] if self.stack else ("", {})
        if tag == "title":
            self.title += text
        elif attributes.get("id") == "data":
            self.data += text
        elif any(it[0] == "ol" for it in self.stack):
            self.said.append(text)


class Page(made.Folder):
    def made_of(self, program):
        self.store("program.ngc", program)
        status, said, errors = self.call(page.main, "job.toml", "part.stl", "program.ngc", "-o", "page.html")
        self.assertEqual((status, errors), (0, ""), said)
        return Outline(self.read("page.html")), said.split("\n")[0]

    def test_of_an_accepted_program(self):
        shown, line = self.made_of(made.program("4.40"))
        data = json.loads(shown.data)
        self.assertTrue(line.startswith("accepted"))
        self.assertEqual((shown.title, shown.names), (line, []))
        self.assertEqual([it["kind"] for it in data["findings"]], ["hidden"])
        self.assertEqual(len(base64.b64decode(data["columns"]["tops"])), 4 * 21 * 17)
        self.assertLessEqual(set(base64.b64decode(data["columns"]["kinds"])), {0, 1})

    def test_a_path_into_the_wall_is_one_cause_with_its_depth_and_lines(self):
        shown, line = self.made_of(made.program("5.30"))
        data = json.loads(shown.data)
        told = " ".join(shown.said)
        self.assertEqual((line.split()[:2], len(data["findings"])), (["rejected", "gouge"], 1))
        self.assertIn("Cutter into a wall, about 0.3 mm sideways", told)
        self.assertIn("9 feeds and 9 rapids, lines 9 to 50, in 9 stretches", told)
        self.assertEqual(len(data["findings"][0]["moves"]), 18)
        self.assertEqual(data["views"][0]["part"][-1], 500)

    def test_a_path_into_a_box_is_told_by_the_box(self):
        self.store("job.toml", made.JOB + "keep_out = [[5000, 0, 5100, 800, 500], [-200, 350, -100, 900, 450]]\n")
        shown, line = self.made_of(made.program("4.40"))
        data = json.loads(shown.data)
        told = " ".join(shown.said)
        self.assertEqual(line.split()[:2] + line.split()[4:6], ["rejected", "fixture", "box", "1"])
        self.assertIn("Cutter into box 1 of", told)
        self.assertIn("Lift the move until the cutter is over Z4.50, or lead it round the box.", told)
        self.assertEqual(data["job"]["keep_out"][0], [5000, 0, 5100, 800, 500])
        self.assertTrue(any(it["boxes"] for it in data["views"]))
        self.assertIn("What stands on the table beside the boxes", self.read("page.html"))

    def test_a_line_that_names_a_box(self):
        self.store("job.toml", made.JOB + "keep_out = [[-200, 350, -100, 900, 450]]\n")
        with mock.patch("camtool.programs.is_built", return_value=False):
            shown, line = self.made_of(made.program("4.40"))
        self.assertIn("Cutter into box 0 of", " ".join(shown.said), line)

    def test_how_far_a_holder_comes_into_a_box(self):
        job = {"cutter": "flat", "radius": 100, "holder_radius": 300, "stickout": 200, "keep_out": [[500, -500, 900, 500, 500]]}
        item = page_read.Item(0, "holder-fixture", 0, 1, "", None, None, None, None, 0)
        found = page_findings.measured_box(job, item, Move(1, "feed", (0, 0, 240), (250, 0, 240)))
        self.assertEqual((found.way, round(found.amount), found.hit.tip), ("side", 50, (250, 0, 240)))
        found = page_findings.measured_box(job, item, Move(1, "feed", (400, 0, 400), (400, 0, 270)))
        self.assertEqual((found.way, round(found.amount)), ("deep", 30))

    def test_a_rapid_that_may_bend(self):
        job = {"cutter": "flat", "radius": 100, "rapids": "axes", "top": 300, "keep_out": [[500, -500, 900, -20, 250]]}
        move = Move(1, "rapid", (0, 0, 200), (400, 50, 240))
        seen = types.SimpleNamespace(job=job, steps=[page_read.Step("a.ngc", job, b"", [move])], triangles=[((420, 60, 0), (420, 90, 300), (500, 60, 0))])
        for item, what, tip, place in (
                (page_read.Item(0, "fixture", 0, 1, "", None, None, None, None, 0), "Cutter may come into box 0", (400, 0, 200), (500, -20, 250)),
                (page_read.Item(0, "rapid", 0, 1, "", None, None, (0, 1, 50, 20, None), None), "Cutter may come into stock", (50, 20, 200), (50, 20, 300)),
                (page_read.Item(0, "holder", 0, 1, "", None, 0, None, "0.10"), "Holder may come into the part", (400, 50, 200), (420, 60, 300))):
            found = page_findings.measured_of(seen, item)
            self.assertEqual((found.way, found.hit.tip, found.hit.place), ("bent", tip, place))
            title, advice = page_findings.words_of_bent(found)
            self.assertEqual((title[: len(what)], "with Z alone" in advice), (what, True))

    def test_a_page_of_a_rapid_that_may_bend(self):
        self.store("job.toml", made.JOB + 'keep_out = [[-400, 600, -250, 900, 500]]\nrapids = "axes"\n')
        shown, line = self.made_of(made.HEAD + "G0 X-3.00 Y8.00 Z4.00\nG0 Z6.00\nM2\n")
        told = " ".join(shown.said)
        self.assertIn("rejected fixture move 0 box 0", line)
        self.assertIn("Cutter may come into box 0 of", told)
        self.assertIn("up first, with Z alone, and then across", told)
        self.assertIn("each axis at its own speed</td>", self.read("page.html"))

    def test_where_a_view_cuts_a_box(self):
        job = {"keep_out": [[0, 0, 100, 50, 7], [0, 60, 10, 70, 8]]}
        self.assertEqual(page_view.boxes_along(job, (50, 20), (1.0, 0.0), 300), [[-50, 50, 7]])
        self.assertEqual(page_view.boxes_along(job, (5, 20), (0.0, 1.0), 45), [[-20, 30, 7], [40, 45, 8]])

    def test_a_path_too_deep_is_told_by_its_lift(self):
        shown, _ = self.made_of(made.program().replace("Z2.00", "Z1.80"))
        self.assertIn("Cutter too deep by 0.20 mm, into the level face at Z2.00", " ".join(shown.said))

    def test_what_is_a_little_too_deep_is_no_touch(self):
        shown, _ = self.made_of(made.program().replace("Z2.00", "Z1.97"))
        self.assertIn("Cutter too deep by 0.03 mm, into the level face at Z2.00", " ".join(shown.said))

    def test_a_touch_is_told_with_the_overcut_that_passes(self):
        for own, end, wanted, deep in ((0, "5.01", 3, "0.03"), (10, "5.12", 14, "0.14")):
            self.store("job.toml", f"{made.JOB}overcut = {own}\n")
            shown, _ = self.made_of(made.program(end))
            told = " ".join(shown.said)
            self.assertIn(f"Only a touch: passes with an overcut of {deep} mm", told)
            self.assertIn(f"overcut = {wanted}", told)
            self.assertIn("a touch of 0.0", told)
        shown, line = self.made_of(made.program("5.07"))
        self.assertTrue(line.startswith("accepted"))

    def test_in_thousandths_a_touch_may_be_a_little_more(self):
        job = re.sub(r"\b(\d+)0\b", r"\g<1>00", made.JOB)
        self.store("job.toml", f'unit = "thousandth"\n{job}')
        shown, _ = self.made_of(made.program("5.012"))
        self.assertIn("Only a touch: passes with an overcut of 0.015 mm", " ".join(shown.said))

    def test_a_touch_of_the_holder(self):
        item = page_read.Item(0, "holder", 0, 1, "", None, 0, None, 5)
        title, advice = page_findings.words_of_touch({"overcut": 5}, page_findings.Measured(item, "touch", 2, None), lambda it: f"{it} units")
        self.assertEqual(title, "Only a touch of the holder: passes with one 2 units less in radius")
        self.assertIn("Let the tool stand out further, or keep the path 3 units off", advice)

    def test_what_is_left_is_told_in_pieces(self):
        rows = made.ROWS.split("G0 Z6.00\n")
        shown, line = self.made_of(made.program(rows="G0 Z6.00\n".join(rows[:6])))
        self.assertEqual(line.split()[:2], ["rejected", "left"])
        self.assertRegex(" ".join(shown.said), r"Left standing at X2.5 Y6.5: about 5.5 by 3.5 mm, 3 mm over the part")
        kinds = base64.b64decode(json.loads(shown.data)["columns"]["kinds"])
        self.assertIn(page_map.FULL, kinds)

    def test_without_camreport_the_line_alone_is_shown(self):
        with mock.patch("camtool.programs.is_built", return_value=False):
            shown, _ = self.made_of(made.program("5.30"))
        self.assertEqual([len(it["moves"]) for it in json.loads(shown.data)["findings"]], [1])
        self.assertTrue("camreport isn&#x27;t built" in self.read("page.html"))

    def test_of_a_refused_program(self):
        self.store("program.ngc", "G99\n")
        status, _, _ = self.call(page.main, "job.toml", "part.stl", "program.ngc")
        shown = Outline(self.read("page.html"))
        self.assertEqual((status, shown.title, shown.data), (0, "refused program line 1 not-in-profile", "null"))
        self.assertTrue("G99" in self.read("page.html"))

    def test_of_a_list(self):
        rows = made.ROWS.split("G0 Z6.00\n")
        for name, some in (("one.ngc", rows[:6]), ("two.ngc", ["", *rows[6:]])):
            self.store(name, made.program(rows="G0 Z6.00\n".join(some)))
        self.store("list.toml", "".join(f'[[steps]]\nprogram = "{it}"\ncutter = "flat"\nradius = 100\n' for it in ("one.ngc", "two.ngc")))
        status, said, errors = self.call(page.main, "job.toml", "part.stl", "list.toml")
        self.assertEqual((status, errors, said.split()[:3]), (0, "", ["accepted", "files", "2"]))
        data = json.loads(Outline(self.read("page.html")).data)
        self.assertEqual(data["programs"], ["one.ngc", "two.ngc"])
        self.assertLessEqual(set(base64.b64decode(data["columns"]["kinds"])), {0, 1})

    def test_it_is_stored_over_none_of_its_files(self):
        self.store("program.ngc", made.program())
        for name in ("job.toml", "part.stl", "./program.ngc"):
            status, _, errors = self.call(page.main, "job.toml", "part.stl", "program.ngc", "-o", name)
            self.assertEqual((status, "is the same file as" in errors), (2, True))
        self.assertEqual(self.read("program.ngc"), made.program())

    def test_what_the_texts_say_is_no_html(self):
        self.store("a<b>.ngc", made.program("5.30").replace("G1 X5.30", "(</script><i>)G1 X5.30"))
        status, _, _ = self.call(page.main, "job.toml", "part.stl", "a<b>.ngc")
        text = self.read("page.html")
        self.assertEqual((status, "<b>.ngc" in text, "<i>)" in text, text.count("</script>")), (0, False, False, 2))

    def test_words_that_it_does_not_know(self):
        for words in ((), ("job.toml",), ("job.toml", "part.stl", "program.ngc", "--fast")):
            status, said, errors = self.call(page.main, *words)
            self.assertEqual((status, said), (2, ""))
            self.assertIn("camtool-page JOB PART", errors)
        self.assertEqual(self.call(page.main, "job.toml", "part.stl", "none.ngc")[0], 2)


class Reading(unittest.TestCase):
    def test_a_job_reads_back_as_it_was_written(self):
        job = {**texts.job_of(made.JOB.encode()), "unit": "thousandth", "levels": [3, 2]}
        self.assertEqual(texts.job_of(texts.job_text(job).encode()), job)


if __name__ == "__main__":
    unittest.main()
