#!/usr/bin/env python3
"""Has tree_page read two full pages of small rows again and again, and prints the microseconds that each took.

Usage: bench/read_pages.py. Needs `rt`. The pages have 4,096 bytes, one of them 371 rows of 5 bytes and the other 43 rows
of 88 bytes. What is timed is reading a page and letting go of its cells; of seven runs the fastest counts. The program
is a crate that is made in a folder of its own, beside copies of tree_page and of what it stands on, and is proved there
before it is built, over the work that earlier checks of those crates have kept; the repository stays as it is.
"""
import os
import tempfile

from sqlite_files import program, run

ROUNDS = 100_000
RUNS = 7
PAGES = [(371, 5), (43, 88)]  # rows, and the bytes of each

PROGRAM = """//! Made by bench/read_pages.py.
#![tactic(auto)]

use db_format::{{Bytes, FormatFault}};
use std::alloc::{{AllocError, Global}};
use std::io;
use std::process::ExitCode;
use std::time::{{Clock, Instant}};
use tree_page::{{LeafCell, LeafCells, PageCells, fits, read_page, write_page}};

/// A page with so many rows, each of so many bytes.
fn full_page(alloc: Global, rows: u16, bytes: u16) -> Result<Option<Vec<u8>>, AllocError> {{
    let mut cells = LeafCells::from_vec(Vec::new(alloc));
    for at in 0..rows {{
        cells.push(LeafCell {{
            rowid: 20_000 + i64::from(at),
            payload_len: u64::from(bytes),
            local: Bytes::from_vec(vec![in alloc; 7; usize::from(bytes)]?),
            overflow: 0,
        }})?;
    }}
    let cells = PageCells::Leaf(cells);
    let mut page = vec![in alloc; 0; 4096]?;
    if page.len() == 4096 && fits(&cells, 2, 4096) {{
        write_page(&cells, 2, 4096, &mut page);
        return Ok(Some(page));
    }}
    Ok(None)
}}

/// How many cells the page has.
fn count(alloc: Global, page: &[u8]) -> Result<usize, FormatFault> {{
    if page.len() != 4096 {{
        return Err(FormatFault::Corrupt);
    }}
    match read_page(alloc, page, 2, 4096)? {{
        PageCells::Leaf(cells) => Ok(cells.as_slice().len()),
        PageCells::Interior {{ .. }} => Ok(0),
    }}
}}

/// How many cells were read in all rounds.
fn count_all(alloc: Global, page: &[u8]) -> usize {{
    let mut total = 0usize;
    for _ in 0..{rounds} {{
        total = total.wrapping_add(count(alloc, page).unwrap_or(0));
    }}
    total
}}

fn timed<R: AllocGlobal + Print + Clock>(rt: &R, rows: u16, bytes: u16) -> io::Result<()> {{
    let Some(page) = full_page(rt.alloc(), rows, bytes)? else {{
        return println!(rt; "no room");
    }};
    let start = Instant::now(rt)?;
    let total = count_all(rt.alloc(), &page);
    let nanos = start.elapsed(rt)?.as_nanos();
    println!(rt; "{{total}} {{nanos}}")
}}

fn main(rt: HostRuntime) -> ExitCode {{
    let answers = [{timed}];
    if answers.iter().any(|answer| answer.is_err()) {{
        return ExitCode::FAILURE;
    }}
    ExitCode::SUCCESS
}}
"""


def built(folder):
    """Makes the crate, and returns what it was built to."""
    calls = ", ".join(f"timed(&rt, {rows}, {size})" for rows, size in PAGES)
    made = program(folder, "read_pages", ["tree_page"], PROGRAM.format(rounds=ROUNDS, timed=calls))
    run(made, "rt", "run")
    return os.path.join(made, "out", "read_pages")


def main():
    with tempfile.TemporaryDirectory() as folder:
        path = built(folder)
        best = {}
        for _ in range(RUNS):
            lines = run(folder, path).splitlines()
            for page, line in zip(PAGES, lines, strict=True):
                total, nanos = map(int, line.split())
                assert total == ROUNDS * page[0], f"{total} cells of {page}"
                best[page] = min(best.get(page, nanos), nanos)
        for (rows, size), nanos in best.items():
            print(f"{rows} rows of {size} bytes: {nanos / ROUNDS / 1000:.2f} microseconds a page")


main()
