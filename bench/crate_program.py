"""A program that calls one function of a crate on a part, for functions that no command of camtool calls.

A bench gives the text of the program's module `call`, which has

- `call`, the call to be timed, with the runtime, an allocator, the sorted part and the task;
- `summary`, two numbers that tell an answer from most others;
- `show`, which prints the answer.

`Program` writes a copy of the crates that it uses with the program as one more, has it proved and built
as every other, and runs it. The task is a tool, a lattice and a height, of words that the baselines take
too, so that `words_of` writes them for both; but for the last one, which says how far the cutter stands out
of a holder of twice its radius, or 0 where there is none.
"""
import os
import shutil
import subprocess
import sys
import typing

import common

LIBRARIES = (
    "mill_base mill_decimal mill_shape mill_geom mill_contact_flat mill_contact_ball mill_contact_cone"
    " mill_part mill_cells mill_stl anyhow itoa thiserror"
)
MAIN = """\
//! Times a call on a part. The script bench/crate_program.py writes this program.
//!
//! Its words: PART CUTTER RADIUS RISE RUN X0 Y0 X1 Y1 STEP HEIGHT STICKOUT and `times` or `answer`. It prints
//! the two numbers of the answer's summary, and the microseconds of sorting the triangles into cells
//! and of the call; or the answer.
#![tactic(auto)]

mod call;
mod task;

use anyhow::{Context, Result, bail};
use call::{call, show, summary};
use mill_base::Unit;
use mill_decimal::Snap;
use mill_part::{Part, SortedPart};
use mill_stl::read_stl;
use std::time::Instant;
use std::{env, fs};
use task::task_of;

fn main(rt: HostRuntime) -> Result<()> {
    let alloc = rt.alloc();
    let mut words = Vec::new(alloc);
    for word in env::args(&rt)?.skip(1) {
        words.push(word)?;
    }
    let [name, numbers @ .., shown] = words.as_slice() else {
        bail!("the words are a part's file, a cutter, an area, a step, a height, a stickout and what to print");
    };
    let task = task_of(numbers).context("a word isn't what it has to be")?;
    let text = fs::read(&rt, name)?;
    let part = Part::new(read_stl(alloc, &text, Snap::Nearest, Unit::Hundredth)?.tris);

    let start = Instant::now(&rt)?;
    let sorted = SortedPart::new(alloc, part).ok().context("out of memory")?;
    let cells_time = start.elapsed(&rt)?;

    let start = Instant::now(&rt)?;
    let answer = call(&rt, alloc, &sorted, task)?;
    let call_time = start.elapsed(&rt)?;

    if shown.as_str() == "answer" {
        return show(&rt, &answer);
    }
    let (count, total) = summary(&answer);
    println!(rt;
        "{count} {total} {} {}",
        cells_time.as_micros(),
        call_time.as_micros()
    )?;
    Ok(())
}
"""
TASK = """\
//! What the program's words say.
ghost use Rattle.std.specs.Prelude.{◌≤◌, ◌≤ℤ◌, pos, IfSome};
ghost use Rattle.mill_base.specs.Lattices.{node_count};
ghost use Rattle.mill_base.specs.Numbers.{Within};
ghost use Rattle.mill_base.specs.Sizes.{IsCutter};
ghost use Rattle.mill_base.specs.declared.limits.TheConstants.{MAX_COORDINATE};
ghost use Rattle.LATTICE;

use mill_base::{
    Box2, Cutter, Lattice, MAX_NODES, MAX_RADIUS, MAX_TEXT_COORDINATE, Solid, Tool,
};

/// A tool, the lattice of places for it, and a height.
#[derive(Clone, Copy)]
pub struct Task {
    pub tool: Tool,
    pub lattice: Lattice,
    pub height: i32,
}

/// The task of the words CUTTER RADIUS RISE RUN X0 Y0 X1 Y1 STEP HEIGHT STICKOUT, none where one is out of range.
pub fn task_of(words: &[String]) -> Option<Task>
    ensures lattice { IfSome result (λ task. IsTaskLattice task.lattice) }
    ensures height { IfSome result (λ task. Within MAX_COORDINATE task.height) }
{
    let [kind, radius, rise, run, x0, y0, x1, y1, step, height, stickout] = words else {
        return None;
    };
    let cutter = cutter_of(kind, number(radius)?, number(rise)?, number(run)?)?;
    let area = Box2 {
        x0: number(x0)?,
        y0: number(y0)?,
        x1: number(x1)?,
        y1: number(y1)?,
    };
    let lattice = lattice_of(area, number(step)?)?;
    let holder = holder_of(number(radius)?, number(stickout)?)?;
    Some(Task {
        tool: Tool {
            cutter: Solid::at_tip(cutter),
            holder,
        },
        lattice,
        height: number(height)?,
    })
}

/// A whole number in the range of a text's coordinates.
fn number(word: &str) -> Option<i32>
    ensures { IfSome result (Within MAX_COORDINATE) }
{
    match word.parse::<i32>() {
        Ok(value) if value.unsigned_abs() <= MAX_TEXT_COORDINATE => Some(value),
        _ => None,
    }
}

/// The holder of a cutter that stands out so far, none where that is 0.
fn holder_of(radius: i32, stickout: i32) -> Option<Option<Solid>>
    requires radius_ok { Within MAX_COORDINATE radius }
    requires stickout_ok { Within MAX_COORDINATE stickout }
{
    if stickout == 0 {
        return Some(None);
    }
    let radius = 2 * radius;
    if stickout < 0 || radius < 1 || radius > MAX_RADIUS {
        return None;
    }
    Some(Some(Solid::new(Cutter::Flat { radius }, stickout)))
}

fn cutter_of(kind: &str, radius: i32, rise: i32, run: i32) -> Option<Cutter>
    ensures { IfSome result IsCutter }
{
    if radius < 1 || radius > MAX_RADIUS {
        return None;
    }
    match kind {
        "flat" => Some(Cutter::Flat { radius }),
        "ball" => Some(Cutter::Ball { radius }),
        "cone" => cone_of(radius, rise, run),
        _ => None,
    }
}

fn cone_of(radius: i32, rise: i32, run: i32) -> Option<Cutter>
    ensures { IfSome result IsCutter }
{
    if radius < 1 || radius > MAX_RADIUS || rise < 1 || rise > 100 || run < 1 || run > 100 {
        return None;
    }
    if rise > 16 * run {
        return None;
    }
    Some(Cutter::Cone { radius, rise, run })
}

fn lattice_of(area: Box2, step: i32) -> Option<Lattice>
    requires x0_ok { Within MAX_COORDINATE area.x0 }
    requires x1_ok { Within MAX_COORDINATE area.x1 }
    requires y0_ok { Within MAX_COORDINATE area.y0 }
    requires y1_ok { Within MAX_COORDINATE area.y1 }
    ensures { IfSome result IsTaskLattice }
{
    if area.x0 > area.x1 || area.y0 > area.y1 || step < 1 {
        return None;
    }
    let lattice = Lattice { area, step };
    if lattice.nodes() > MAX_NODES {
        return None;
    }
    Some(lattice)
}
"""
# The cutters' forms, each with its rise and run.
FORMS = {"flat": (1, 1), "ball": (1, 1), "cone": (2, 1)}


class Case(typing.NamedTuple):
    """A part's cutters' radius, its lattice's step and the height, in units."""

    radius: int
    step: int
    height: int


def words_of(part, case, form, length, less=0, more=0):
    """A task's words for the program or a baseline, with lengths as `length` writes them.

    For a baseline, the radius may be `less` and the height `more` by so many millimetres.
    """
    side = common.side(part)
    radius = f"{case.radius / 100 - less:.9f}" if less else length(case.radius)
    height = f"{case.height / 100 + more:.9f}" if more else length(case.height)
    return [form, radius, *FORMS[form], *map(length, (0, 0, side, side, case.step)), height]


class Program:
    """The program that times a call: its crate's name, what it uses, the lattice's definition, and its `call`."""

    def __init__(self, folder, name, uses, lattice, call):
        self.folder = os.path.join(folder, "repository")
        self.name = name
        self.crate = os.path.join(self.folder, "crates", name)
        self.file = os.path.join(self.crate, "out", name)
        self.write(f"{LIBRARIES} {uses}", {"main": MAIN, "task": TASK.replace("LATTICE", lattice), "call": call})
        self.build()

    def write(self, uses, modules):
        """Writes a copy of the crates that are used, and the crate."""
        used = uses.split()
        unread = shutil.ignore_patterns("must-fail", "data", "out")
        with open(os.path.join(common.ROOT, "crates.txt"), encoding="utf-8") as file:
            lines = [line for line in file if line.partition(":")[0].partition(" ")[0] in used]
        os.makedirs(os.path.join(self.crate, "src"), exist_ok=True)
        with open(os.path.join(self.folder, "crates.txt"), "w", encoding="utf-8") as file:
            file.writelines([*lines, f"{self.name}: {uses}\n"])
        shutil.copy2(os.path.join(common.ROOT, "HANDLES"), self.folder)
        for name in used:
            crate = os.path.join(common.ROOT, "crates", name)
            if os.path.isdir(crate):
                shutil.copytree(crate, os.path.join(self.folder, "crates", name), ignore=unread, dirs_exist_ok=True)
        for name, text in modules.items():
            with open(os.path.join(self.crate, "src", name + ".rt"), "w", encoding="utf-8") as file:
                file.write(text)

    def build(self):
        """Proves and builds the program."""
        if os.path.exists(self.file):
            os.remove(self.file)
        common.note("proving and building the program")
        jobs = os.environ.get("CAMTOOL_JOBS")
        environment = {**os.environ, **({"RT_JOBS": jobs} if jobs else {})}
        # As a repository of its own, in the layout that the gate asks for: it takes what was proved on this machine.
        # The program runs once there, with no words, which it refuses.
        os.makedirs(os.path.join(self.folder, ".git"), exist_ok=True)
        subprocess.run(["rt", "fmt"], cwd=self.crate, stdout=subprocess.DEVNULL, stderr=subprocess.DEVNULL)
        built = subprocess.run(
            ["rt", "ci"], cwd=self.folder, env=environment, stdout=subprocess.PIPE, stderr=subprocess.STDOUT, text=True
        )
        if not os.path.exists(self.file):
            sys.exit(built.stdout + "the build failed")

    def run(self, stl, words, shown, threads, stickout=0):
        return common.run([self.file, stl, *words, stickout, shown], threads)
