#!/usr/bin/env python3
"""Puts rows into trees in memory, and lets sqlite3 check the pages and print the rows.

Usage: bench/trees_against_sqlite.py. Needs `sqlite3` and `rt`; without sqlite3 it says so and does nothing. Two tables
are made by rows of the schema tree on page 1, then hundreds of rows with payloads of up to 66,000 bytes are put into both,
in rising, falling and scattered order, many of them twice. The pages are printed and written to a file, in which sqlite3
has to find nothing wrong and just the rows that were put last. The program is a crate that is made in a folder of its own,
over copies of rowid_tree and of what it stands on, and is run there by `rt try`; the repository stays as it is.
"""
import os
import random
import shutil
import sys
import tempfile

from sqlite_files import program, run, sqlite

# the size of a page, how much of it is reserved, and about how many puts: what `rt try` lets a program print is 1 MiB
SPACES = [(512, 0, 350), (512, 32, 350), (1024, 8, 350), (4096, 0, 70)]

PROGRAM = """//! Made by bench/trees_against_sqlite.py.
#![tactic(auto)]

use byte_base::u32_at;
use db_format::{Bytes, Header, Value, new_header, write_header, write_record};
use rowid_tree::{MemSpace, PageSpace, SpaceFault, make_root, put};
use std::alloc::Global;
use std::process::ExitCode;
use tree_page::{LeafCells, PageCells, write_page};

/// The table, the rowid, the length and the seed of each row, in the order in which they are put.
const PUTS: &[(u32, i64, u32, u32)] = &[@PUTS@];

fn blob(alloc: Global, len: u32, seed: u32) -> Result<Bytes, SpaceFault> {
    let mut bytes = Vec::new(alloc);
    for at in 0..len {
        bytes.push((seed.wrapping_mul(31).wrapping_add(at.wrapping_mul(7)) % 251) as u8)?;
    }
    Ok(Bytes::from_vec(bytes))
}

fn text(alloc: Global, text: &[u8]) -> Result<Value, SpaceFault> {
    Ok(Value::Text(Bytes::copy_of(alloc, text)?))
}

fn schema_row(alloc: Global, space: &mut MemSpace, rowid: i64, name: &[u8], root: u32, sql: &[u8]) -> Result<(), SpaceFault> {
    let values = [text(alloc, b"table")?, text(alloc, name)?, text(alloc, name)?, Value::Int(i64::from(root)), text(alloc, sql)?];
    let record = write_record(alloc, &values)?;
    put(alloc, space, 1, rowid, record.as_slice())?;
    Ok(())
}

fn made(alloc: Global) -> Result<MemSpace, SpaceFault> {
    let mut space = MemSpace::new(alloc, @SIZE@, @RESERVED@)?;
    space.grow()?;
    let mut page = vec![in alloc; 0u8; @SIZE@]?;
    let cells = PageCells::Leaf(LeafCells::from_vec(Vec::new(alloc)));
    write_page(&cells, 1, @SIZE@ - @RESERVED@, &mut page);
    new_header(@SIZE@, @RESERVED@, &mut page);
    space.put(1, &page)?;
    let t = make_root(alloc, &mut space)?;
    let u = make_root(alloc, &mut space)?;
    schema_row(alloc, &mut space, 1, b"t", t, b"CREATE TABLE t(a)")?;
    schema_row(alloc, &mut space, 2, b"u", u, b"CREATE TABLE u(a)")?;
    for (table, rowid, len, seed) in PUTS {
        let record = write_record(alloc, &[Value::Blob(blob(alloc, *len, *seed)?)])?;
        put(alloc, &mut space, if *table == 0 { t } else { u }, *rowid, record.as_slice())?;
    }
    space.get(1, &mut page)?;
    let header = Header {
        page: @SIZE@,
        reserved: @RESERVED@,
        counter: 1,
        size: space.size(),
        first_trunk: u32_at(&page, 32),
        free_pages: u32_at(&page, 36),
        cookie: 1,
    };
    write_header(&header, &mut page);
    space.put(1, &page)?;
    Ok(space)
}

fn print_pages<R: AllocGlobal + Print>(rt: &R, space: &mut MemSpace) -> Result<(), SpaceFault> {
    let digits = b"0123456789abcdef";
    let mut page = vec![in rt.alloc(); 0u8; @SIZE@]?;
    for number in 1..=space.size() {
        space.get(number, &mut page)?;
        let mut line = String::new(rt.alloc());
        for byte in page.iter() {
            line.push(char::from(digits[usize::from(*byte >> 4)]))?;
            line.push(char::from(digits[usize::from(*byte & 15)]))?;
        }
        if println!(rt; "{line}").is_err() {
            return Err(SpaceFault::Failed);
        }
    }
    Ok(())
}

fn main(rt: HostRuntime) -> ExitCode {
    let Ok(mut space) = made(rt.alloc()) else {
        return ExitCode::FAILURE;
    };
    if print_pages(&rt, &mut space).is_err() {
        return ExitCode::FAILURE;
    }
    ExitCode::SUCCESS
}
"""


def blob(length, seed):
    return bytes((seed * 31 + at * 7) % 251 for at in range(length))


def puts(rng, size, count):
    """Rows in rising, falling and scattered order; some rowids come again, with another payload."""
    found = []
    third, most = count * 2 // 7, count * 6 // 7
    for order in (range(third), range(2 * third, third, -1), [rng.randrange(-most, most) for _ in range(most // 2)]):
        for at in order:
            length = rng.choice([0, 1, 5, 40, size // 5, size - 60, size, 3 * size, rng.randrange(4 * size)])
            found.append((rng.randrange(2), at * 3, length, rng.randrange(1000)))
    found.append((0, 2**63 - 1, 66_000, 1))
    found.append((1, -(2**63), 66_000, 2))
    found.append((0, 2**63 - 1, 3, 3))
    return found


def compare(rng, size, reserved, count):
    rows = puts(rng, size, count)
    source = PROGRAM.replace("@SIZE@", str(size)).replace("@RESERVED@", str(reserved))
    source = source.replace("@PUTS@", ", ".join(f"({t}, {r}, {n}, {s})" for t, r, n, s in rows))
    with tempfile.TemporaryDirectory() as folder:
        made = program(folder, "made", ["rowid_tree"], source)
        lines = [line for line in run(made, "rt", "try").splitlines() if len(line) == 2 * size]
        path = os.path.join(folder, "made.db")
        with open(path, "wb") as file:
            file.write(b"".join(bytes.fromhex(line) for line in lines))
        assert sqlite(path, "PRAGMA integrity_check;") == "ok\n", "sqlite3 finds something wrong"
        wanted = [{}, {}]
        for table, rowid, length, seed in rows:
            wanted[table][rowid] = blob(length, seed)
        for table, name in enumerate("tu"):
            shown = sqlite(path, f"SELECT rowid, hex(a) FROM {name} ORDER BY rowid;").splitlines()
            assert shown == [f"{rowid}|{wanted[table][rowid].hex().upper()}" for rowid in sorted(wanted[table])], name
        free = int(sqlite(path, "PRAGMA freelist_count;"))
        print(f"{size} bytes, {reserved} reserved: {len(rows)} puts, {sum(map(len, wanted))} rows on {len(lines)} pages, {free} free")


def main():
    if shutil.which("sqlite3") is None:
        sys.exit("sqlite3 is not here: nothing was compared")
    rng = random.Random(7)
    for size, reserved, count in SPACES:
        compare(rng, size, reserved, count)


main()
