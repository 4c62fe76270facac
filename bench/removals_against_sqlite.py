#!/usr/bin/env python3
"""Takes rows out of deep trees that sqlite3 wrote, and lets sqlite3 check the pages after each tenth one.

Usage: bench/removals_against_sqlite.py. Needs `sqlite3` and `rt`; without sqlite3 it says so and does nothing. sqlite3 makes
tables of large rows on small pages, so that their trees have three levels, and deletes some rows, so that pages are free. Then
rows are taken out in rising, falling and scattered order, with some put in between, until few are left or none. After each tenth
change the pages are printed and written to a file, in which sqlite3 has to find nothing wrong and just the rows that are left. The
program is a crate that is made in a folder of its own, over copies of rowid_tree and of what it stands on, and is run there by
`rt try`; the repository stays as it is.
"""
import os
import random
import shutil
import subprocess
import sys
import tempfile

from sqlite_files import program, sqlite

# the size of a page, how much of it is reserved, the rows at first, the length of their blobs, and the order of removals
SPACES = [(512, 0, 150, 420, "rising"), (512, 0, 150, 420, "falling"), (512, 32, 140, 600, "scattered"), (1024, 8, 160, 900, "scattered")]
EACH = 10

PROGRAM = """//! Made by bench/removals_against_sqlite.py.
#![tactic(auto)]

use db_format::{Bytes, Value, write_record};
use rowid_tree::{MemSpace, PageSpace, SpaceFault, put, remove};
use std::alloc::Global;
use std::process::ExitCode;

/// Bytes that stand on a page at a place.
const PATCHES: &[(u32, usize, &[u8])] = &[@PATCHES@];

/// Whether a row is put, its rowid, and the length of its blob.
const STEPS: &[(bool, i64, usize)] = &[@STEPS@];

fn space_of(alloc: Global) -> Result<MemSpace, SpaceFault> {
    let mut space = MemSpace::new(alloc, @SIZE@, @RESERVED@)?;
    for number in 1..=@PAGES@u32 {
        space.grow()?;
        let mut page = vec![in alloc; 0u8; @SIZE@]?;
        for (at, place, bytes) in PATCHES {
            if *at == number {
                for (slot, byte) in page.iter_mut().skip(*place).zip(bytes.iter()) {
                    *slot = *byte;
                }
            }
        }
        space.put(number, &page)?;
    }
    Ok(space)
}

fn step(alloc: Global, space: &mut MemSpace, puts: bool, rowid: i64, len: usize) -> Result<bool, SpaceFault> {
    if !puts {
        return remove(alloc, space, @ROOT@, rowid);
    }
    let blob = Bytes::from_vec(vec![in alloc; 0u8; len]?);
    let record = write_record(alloc, &[Value::Int(rowid.wrapping_mul(7)), Value::Blob(blob)])?;
    put(alloc, space, @ROOT@, rowid, record.as_slice())
}

/// The runs of each page that are not zero: its number, and each run with its place.
fn print_pages<R: AllocGlobal + Print>(rt: &R, space: &mut MemSpace) -> Result<(), SpaceFault> {
    let digits = b"0123456789abcdef";
    let mut page = vec![in rt.alloc(); 0u8; @SIZE@]?;
    for number in 1..=space.size() {
        space.get(number, &mut page)?;
        let mut line = String::new(rt.alloc());
        let mut zeros = 4usize;
        for (place, byte) in page.iter().enumerate() {
            if *byte == 0 {
                zeros = zeros.saturating_add(1);
                continue;
            }
            if zeros >= 4 {
                let begin = format!(in rt.alloc(); " {place}:")?;
                line.push_str(&begin)?;
            } else {
                for _ in 0..zeros {
                    line.push_str("00")?;
                }
            }
            zeros = 0;
            line.push(char::from(digits[usize::from(*byte >> 4)]))?;
            line.push(char::from(digits[usize::from(*byte & 15)]))?;
        }
        if println!(rt; "page {number}{line}").is_err() {
            return Err(SpaceFault::Failed);
        }
    }
    Ok(())
}

fn go<R: AllocGlobal + Print>(rt: &R) -> Result<(), SpaceFault> {
    let mut space = space_of(rt.alloc())?;
    let mut left = @EACH@u32;
    for (puts, rowid, len) in STEPS {
        let there = step(rt.alloc(), &mut space, *puts, *rowid, *len)?;
        if println!(rt; "done {there}").is_err() {
            return Err(SpaceFault::Failed);
        }
        left = left.saturating_sub(1);
        if left == 0 {
            print_pages(rt, &mut space)?;
            left = @EACH@;
        }
    }
    print_pages(rt, &mut space)
}

fn main(rt: HostRuntime) -> ExitCode {
    if go(&rt).is_err() {
        return ExitCode::FAILURE;
    }
    ExitCode::SUCCESS
}
"""


def patches(data, size):
    """The runs of each page that are not zero."""
    found = []
    for number in range(len(data) // size):
        page, place = data[number * size : (number + 1) * size], 0
        while place < size:
            if page[place] == 0:
                place += 1
                continue
            end = place
            while end < size and any(page[end : end + 4]):
                end += 1
            found.append((number + 1, place, page[place:end]))
            place = end
    return found


def start(path, size, reserved, count, length):
    """A database that sqlite3 wrote: the rows that it has left, by rowid."""
    with sqlite_with_reserve(path, size, reserved) as ask:
        ask("CREATE TABLE t(a, b);")
        ask("BEGIN;" + "".join(f"INSERT INTO t(rowid, a, b) VALUES({at}, {at * 7}, zeroblob({length}));" for at in range(1, count + 1)) + "COMMIT;")
        ask(f"DELETE FROM t WHERE rowid % 11 = 0 OR rowid BETWEEN {count // 2} AND {count // 2 + 6};")
    return {at: length for at in range(1, count + 1) if at % 11 and not count // 2 <= at <= count // 2 + 6}


class sqlite_with_reserve:
    """sqlite3 over a file whose pages have reserved bytes, which only its own shell's dot command can ask for."""

    def __init__(self, path, size, reserved):
        self.path, self.first = path, [f"PRAGMA page_size={size};", f".filectrl reserve_bytes {reserved}"]

    def __enter__(self):
        self.lines = list(self.first)
        return self.lines.append

    def __exit__(self, *_):
        subprocess.run(["sqlite3", self.path], input="\n".join(self.lines) + "\n", capture_output=True, text=True, check=True)


def steps(rng, rows, length, order):
    keys = sorted(rows)
    if order == "falling":
        keys.reverse()
    if order == "scattered":
        rng.shuffle(keys)
    found = []
    for at, key in enumerate(keys):
        found.append((False, key, 0))
        if order == "scattered" and at % 5 == 0:
            found.append((True, 1000 + at, rng.choice([0, 5, length, 3 * length])))
        if at % 17 == 0:
            found.append((False, 500_000 + at, 0))
    return found


def states(lines, size):
    """What was done, and the pages after each part of it."""
    done, pages = [], {}
    for line in lines:
        words = line.split()
        if words[:1] == ["done"]:
            if pages:
                yield done, pages
                done, pages = [], {}
            done.append(words[1] == "true")
        elif words[:1] == ["page"]:
            page = bytearray(size)
            for run in words[2:]:
                place, digits = run.split(":")
                page[int(place) : int(place) + len(digits) // 2] = bytes.fromhex(digits)
            pages[int(words[1])] = page
    if pages:
        yield done, pages


def compare(rng, size, reserved, count, length, order):
    with tempfile.TemporaryDirectory() as folder:
        path = os.path.join(folder, "made.db")
        rows = start(path, size, reserved, count, length)
        with open(path, "rb") as file:
            data = file.read()
        assert data[20] == reserved, "sqlite3 did not reserve the bytes"
        root = int(sqlite(path, "SELECT rootpage FROM sqlite_schema;"))
        plan = steps(rng, rows, length, order)
        source = PROGRAM.replace("@SIZE@", str(size)).replace("@RESERVED@", str(reserved)).replace("@ROOT@", str(root))
        source = source.replace("@PAGES@", str(len(data) // size)).replace("@EACH@", str(EACH))
        source = source.replace("@PATCHES@", ", ".join(f"({n}, {p}, &[{', '.join(map(str, b))}])" for n, p, b in patches(data, size)))
        source = source.replace("@STEPS@", ", ".join(f"({str(p).lower()}, {r}, {n})" for p, r, n in plan))
        made = program(folder, "made", ["rowid_tree"], source)
        out = subprocess.run(["rt", "try", "--seconds", "600"], cwd=made, capture_output=True, text=True)
        seen, at, most = 0, 0, 0
        for done, pages in states(out.stdout.splitlines(), size):
            for there in done:
                puts, rowid, blob = plan[at]
                at += 1
                assert there == (rowid in rows), f"row {rowid}"
                if puts:
                    rows[rowid] = blob
                else:
                    rows.pop(rowid, None)
            whole = bytearray(b"".join(bytes(pages[n]) for n in sorted(pages)))
            whole[28:32] = len(pages).to_bytes(4, "big")
            with open(path, "wb") as file:
                file.write(whole)
            assert sqlite(path, "PRAGMA integrity_check;") == "ok\n", f"sqlite3 finds something wrong after {at} changes"
            shown = sqlite(path, "SELECT rowid, a, length(b) FROM t ORDER BY rowid;").splitlines()
            assert shown == [f"{rowid}|{rowid * 7}|{rows[rowid]}" for rowid in sorted(rows)], f"after {at} changes"
            seen, most = seen + 1, max(most, len(pages))
        assert at == len(plan), f"{at} of {len(plan)} changes were done: {out.stdout[-300:]} {out.stderr[-300:]}"
        free = int(sqlite(path, "PRAGMA freelist_count;"))
        print(f"{size} bytes, {reserved} reserved, {order}: {at} changes from {len(data) // size} pages, {seen} states, {len(rows)} rows left, {free} of {most} pages free")


def main():
    if shutil.which("sqlite3") is None:
        sys.exit("sqlite3 is not here: nothing was compared")
    rng = random.Random(11)
    for space in SPACES:
        compare(rng, *space)


main()
