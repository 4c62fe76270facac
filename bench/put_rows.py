#!/usr/bin/env python3
"""Puts 1,000, 10,000 and 100,000 rows into a tree in memory, and prints what a put costs.

Usage: bench/put_rows.py. Needs `rt`. Rows of 30 bytes with rising rowids, and with scattered ones, are put into a tree
of pages of 4,096 bytes. Printed are the microseconds of a put and the pages that it reads and writes, all on average. The
program is a crate that is made in a folder of its own, over copies of rowid_tree and of what it stands on, and is proved
there before it is built, over the work that earlier checks of those crates have kept; the repository stays as it is.
"""
import os
import tempfile

from sqlite_files import program, run

COUNTS = [1_000, 10_000, 100_000]

PROGRAM = """//! Made by bench/put_rows.py.
#![tactic(auto)]

ghost use Rattle.page_pool.specs.Memory.{mem_state};

use db_format::new_header;
use page_pool::put_cleared;
use rowid_tree::{MemSpace, PageSpace, SpaceFault, make_root, put};
use std::alloc::Global;
use std::io;
use std::process::ExitCode;
use std::time::{Clock, Instant};
use tree_page::{LeafCells, PageCells, fits, write_page};

/// A space in memory that counts which pages are read and written.
#[derive(Drop)]
struct Counted {
    pages: MemSpace,
    reads: u64,
    writes: u64,
}

impl PageSpace for Counted {
    ghost use Rattle.page_pool.specs.Memory.{mem_state};

    ghost state = { λ c. mem_state c.pages };

    fn page_size(&self) -> u32 {
        self.pages.page_size()
    }

    fn usable(&self) -> u32 {
        self.pages.usable()
    }

    fn size(&self) -> u32 {
        self.pages.size()
    }

    fn get(&mut self, number: u32, into: &mut [u8]) -> Result<(), SpaceFault> {
        self.reads = self.reads.wrapping_add(1);
        self.pages.get(number, into)
    }

    fn put(&mut self, number: u32, bytes: &[u8]) -> Result<(), SpaceFault> {
        self.writes = self.writes.wrapping_add(1);
        self.pages.put(number, bytes)
    }

    fn grow(&mut self) -> Result<u32, SpaceFault> {
        self.pages.grow()
    }
}

/// Which rowid is put as number `at` of `count`.
fn rowid(at: u32, scattered: bool) -> i64 {
    if scattered {
        i64::from(at.wrapping_mul(2_654_435_761))
    } else {
        i64::from(at)
    }
}

/// A tree of its own with so many rows.
fn fill(alloc: Global, count: u32, scattered: bool) -> Result<Counted, SpaceFault> {
    let pages = MemSpace::new(alloc, 4096, 0)?;
    let mut space = Counted {
        pages,
        reads: 0,
        writes: 0,
    };
    space.grow()?;
    let mut page = vec![in alloc; 0u8; 4096]?;
    let cells = PageCells::Leaf(LeafCells::from_vec(Vec::new(alloc)));
    if page.len() == 4096 && fits(&cells, 1, 4096) {
        write_page(&cells, 1, 4096, &mut page);
        new_header(4096, 0, &mut page);
    }
    if space.size() == 1 && space.page_size() == 4096 && space.usable() == 4096 && page.len() == 4096 {
        put_cleared(&mut space, 1, &mut page)?;
    }
    if space.size() == 0 {
        return Err(SpaceFault::Memory);
    }
    let root = make_root(alloc, &mut space)?;
    space.reads = 0;
    space.writes = 0;
    let payload = [7; 30];
    for at in 0..count {
        if space.size() == 0 {
            return Err(SpaceFault::Memory);
        }
        put(alloc, &mut space, root, rowid(at, scattered), &payload)?;
    }
    Ok(space)
}

fn timed<R: AllocGlobal + Print + Clock>(rt: &R, count: u32, scattered: bool) -> io::Result<()> {
    let start = Instant::now(rt)?;
    let filled = fill(rt.alloc(), count, scattered);
    let nanos = start.elapsed(rt)?.as_nanos();
    match filled {
        Ok(space) => {
            let reads = space.reads;
            let writes = space.writes;
            let size = space.size();
            println!(rt; "{count} {scattered} {nanos} {reads} {writes} {size}")
        }
        Err(_) => println!(rt; "refused"),
    }
}

fn main(rt: HostRuntime) -> ExitCode {
    let counts = [@COUNTS@];
    for count in counts {
        if timed(&rt, count, false).is_err() || timed(&rt, count, true).is_err() {
            return ExitCode::FAILURE;
        }
    }
    ExitCode::SUCCESS
}
"""


def main():
    with tempfile.TemporaryDirectory() as folder:
        source = PROGRAM.replace("@COUNTS@", ", ".join(map(str, COUNTS)))
        made = program(folder, "put_rows", ["rowid_tree"], source)
        run(made, "rt", "run")
        for line in run(folder, os.path.join(made, "out", "put_rows")).splitlines():
            count, scattered, nanos, reads, writes, size = line.split()
            order = "scattered" if scattered == "true" else "rising"
            each = int(count)
            print(f"{each:>7} {order:<9} {int(nanos) / each / 1000:6.1f} microseconds a put, "
                  f"{int(reads) / each:.2f} pages read, {int(writes) / each:.2f} written; {size} pages")


main()
