"""The program that drops a cutter at each node of a lattice, its parts and its tools."""
from crate_program import Case, Program

LATTICE = "mill_base.specs.Lattices.{IsMapLattice as IsTaskLattice}"
CALL = """\
//! Drops the cutter at each node of the lattice.
ghost use Rattle.mill_base.specs.Numbers.{Within};
ghost use Rattle.mill_base.specs.declared.limits.TheConstants.{MAX_COORDINATE};
ghost use Rattle.mill_base.specs.Lattices.{IsMapLattice};

use crate::task::Task;
use anyhow::{Context, Result};
use mill_crew::Threaded;
use mill_drop::DropCrew;
use mill_part::SortedPart;
use std::alloc::Global;
use std::thread::Threads;

/// The heights, row by row.
pub fn call<R: Threads + Sync>(
    rt: &R,
    alloc: Global,
    part: &SortedPart,
    task: Task,
) -> Result<Vec<i32>>
    requires lattice_ok { IsMapLattice task.lattice }
    requires height_ok { Within MAX_COORDINATE task.height }
{
    let Task {
        tool,
        lattice,
        height,
    } = task;
    let crew = Threaded { rt, workers: 1 };
    crew.drop_map(
        alloc,
        part,
        &tool,
        &lattice,
        height,
    )
    .ok()
    .context("out of memory")
}

/// How many heights there are, and their sum.
pub fn summary(heights: &[i32]) -> (usize, i64) {
    let mut sum = 0_i64;
    for height in heights {
        sum = sum.wrapping_add(i64::from(*height));
    }
    (heights.len(), sum)
}

/// Prints each height.
pub fn show<R: Print>(rt: &R, heights: &[i32]) -> Result<()> {
    for height in heights {
        println!(rt; "{height}")?;
    }
    Ok(())
}
"""

CASES = {"sample 32": Case(100, 8, 0), "sample 100": Case(100, 20, 0), "bumps": Case(150, 20, 0)}


def drop_program(folder):
    """Proves and builds it."""
    return Program(folder, "drop_bench", "mill_sweep mill_crew mill_drop rayon", LATTICE, CALL)
