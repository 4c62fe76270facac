#!/usr/bin/env python3
"""Lets sqlite3 leave rollback journals behind, and has journal_format read what they stand for.

Usage: bench/journals_against_sqlite.py. Needs `strace`, Python's sqlite3 and `rt`; without strace it says so and does nothing. A
process changes a database under a journal and is killed at one of its syncs, each in turn, for each mode of the journal and each page
size. The journal that it leaves is read: what journal_format says is played is played here over the database file, which then has to be,
byte by byte, what sqlite3 makes of a copy. What is refused has to be a journal of several parts, of a transaction that was too large for
the cache, or one with bytes of an older journal behind its end. The program is a crate that is made in a folder of its own, over copies
of journal_format and of what it stands on, and is run there by `rt try`; the repository stays as it is.
"""
import collections
import os
import shutil
import sqlite3
import struct
import subprocess
import sys
import tempfile

from sqlite_files import program

MODES = ["delete", "truncate", "persist"]
SIZES = [512, 1024, 2048, 4096, 8192, 16384, 32768, 65536]
# of a transaction that spills the cache, which syncs many times, the first ones alone
MOST_SYNCS = {0: 40, 3: 9}
MAGIC = bytes.fromhex("d9d505f920a163d7")

# a process that makes a database, and one that changes it; the latter is the one that is killed
MAKE = """
import sqlite3, sys
path, size, mode, rows, spill = sys.argv[1:]
db = sqlite3.connect(path, isolation_level=None)
db.execute(f"PRAGMA page_size={size}")
db.execute(f"PRAGMA journal_mode={mode}")
db.execute("CREATE TABLE t(a, b)")
db.execute("BEGIN")
for at in range(int(rows)):
    db.execute("INSERT INTO t(rowid, a, b) VALUES(?, ?, zeroblob(?))", (at + 1, at, int(size) // 3))
db.execute("COMMIT")
"""
CHANGE = """
import sqlite3, sys
path, size, mode, rows, spill = sys.argv[1:]
db = sqlite3.connect(path, isolation_level=None)
db.execute(f"PRAGMA journal_mode={mode}")
db.execute("PRAGMA synchronous=FULL")
if int(spill):
    db.execute(f"PRAGMA cache_size={spill}")
else:
    db.execute("PRAGMA cache_spill=OFF")
if mode == "persist":
    db.execute("UPDATE t SET a = 7 WHERE rowid % 2 = 0")
db.execute("BEGIN")
db.execute("UPDATE t SET a = a + 1000 WHERE rowid % 5 = 1")
db.execute("DELETE FROM t WHERE rowid % 7 = 3")
db.execute("INSERT INTO t(a, b) VALUES(1, zeroblob(?))", (3 * int(size),))
db.execute("COMMIT")
"""

PROGRAM = """//! Made by bench/journals_against_sqlite.py.
#![tactic(auto)]

use journal_format::{Hot, JournalFault, read_hot};
use std::alloc::{AllocError, Global};
use std::io::Read;
use std::process::ExitCode;

/// All bytes of standard input.
fn all_of<R: Read>(alloc: Global, input: &mut R) -> Result<Vec<u8>, AllocError> {
    let mut all = Vec::new(alloc);
    let mut piece = [0u8; 4096];
    for _ in 0..u64::MAX {
        match input.read(&mut piece) {
            Ok(0) => return Ok(all),
            Ok(count) => all.extend_from_slice(&piece[..count.min(4096)])?,
            Err(_) => {}
        }
    }
    Ok(all)
}

fn hex(alloc: Global, bytes: &[u8]) -> Result<String, AllocError> {
    let digits = b"0123456789abcdef";
    let mut line = String::new(alloc);
    for byte in bytes {
        line.push(char::from(digits[usize::from(*byte >> 4)]))?;
        line.push(char::from(digits[usize::from(*byte & 15)]))?;
    }
    Ok(line)
}

/// Says what a journal stands for.
fn say<R: AllocGlobal + Print>(rt: &R, bytes: &[u8]) -> Result<(), JournalFault> {
    match read_hot(rt.alloc(), bytes) {
        Ok(Hot::Cold) => {
            let _said = println!(rt; "cold");
        }
        Ok(Hot::Play(play)) => {
            let _said = println!(rt; "play {} {} {}", play.page, play.initial, play.super_name.is_some());
            for page in play.records.as_slice() {
                let bytes = page.bytes.as_slice();
                let front = hex(rt.alloc(), &bytes[..bytes.len().min(16)])?;
                let back = hex(rt.alloc(), &bytes[bytes.len().saturating_sub(16)..])?;
                let _said = println!(rt; "page {} {front} {back}", page.number);
            }
        }
        Err(JournalFault::Foreign) => {
            let _said = println!(rt; "foreign");
        }
        Err(JournalFault::Memory) => return Err(JournalFault::Memory),
    }
    Ok(())
}

/// The length in front, as four bytes, and what stands behind it.
fn cut_front(bytes: &[u8]) -> Option<(usize, &[u8])> {
    match bytes {
        [a, b, c, d, rest @ ..] => Some((((usize::from(*a) * 256 + usize::from(*b)) * 256 + usize::from(*c)) * 256 + usize::from(*d), rest)),
        _ => None,
    }
}

fn main(rt: HostRuntime) -> ExitCode {
    let mut input = rt.stdin();
    let Ok(bytes) = all_of(rt.alloc(), &mut input) else {
        return ExitCode::FAILURE;
    };
    let mut rest = bytes.as_slice();
    for _ in 0..u64::MAX {
        let Some((len, more)) = cut_front(rest) else {
            return ExitCode::SUCCESS;
        };
        let len = len.min(more.len());
        if say(&rt, &more[..len]).is_err() {
            return ExitCode::FAILURE;
        }
        rest = &more[len..];
    }
    ExitCode::SUCCESS
}
"""


def killed(folder, size, mode, rows, spill, at):
    """The database and the journal that a process leaves which is killed at a sync, and whether it was."""
    path = os.path.join(folder, "made.db")
    for name in (path, path + "-journal"):
        if os.path.exists(name):
            os.remove(name)
    words = [path, str(size), mode, str(rows), str(spill)]
    subprocess.run([sys.executable, "-c", MAKE, *words], check=True)
    traced = ["strace", "-f", "-qq", "-o", os.devnull, "-e", "trace=fsync,fdatasync", "-e", f"inject=fsync,fdatasync:signal=KILL:when={at}"]
    done = subprocess.run([*traced, sys.executable, "-c", CHANGE, *words], capture_output=True)
    with open(path, "rb") as file:
        data = file.read()
    journal = None
    if os.path.exists(path + "-journal"):
        with open(path + "-journal", "rb") as file:
            journal = file.read()
    return data, journal, done.returncode != 0


def recovered(folder, data, journal):
    """What sqlite3 makes of a copy of both."""
    path = os.path.join(folder, "copy.db")
    for name, content in ((path, data), (path + "-journal", journal)):
        with open(name, "wb") as file:
            file.write(content)
    db = sqlite3.connect(path)
    found = db.execute("PRAGMA integrity_check").fetchone()[0]
    db.close()
    assert found == "ok", f"sqlite3 finds {found}"
    with open(path, "rb") as file:
        return file.read()


def played(data, journal, lines):
    """The file with what journal_format says is played: its records are found in the journal by their numbers and their ends, in order."""
    page, initial = int(lines[0].split()[1]), int(lines[0].split()[2])
    file, at = bytearray(data), struct.unpack(">I", journal[20:24])[0]
    for line in lines[1:]:
        number, front, back = line.split()[1:]
        while True:
            record = journal[at : at + page + 8]
            assert len(record) == page + 8, "a record is played that the journal does not have"
            at += page + 8
            original = record[4:-4]
            if record[:4] == int(number).to_bytes(4, "big") and original[:16].hex() == front and original[-16:].hex() == back:
                break
        start = (int(number) - 1) * page
        file[start : start + page] = original
    return bytes(file[: initial * page])


def parts_of(journal, size):
    """Whether a hot journal has more behind the records that its first header counts."""
    count, sector = struct.unpack(">I", journal[8:12])[0], struct.unpack(">I", journal[20:24])[0]
    return len(journal) > sector + count * (size + 8)


def cases(folder, size):
    """What each process leaves that is killed: the page size, the mode, whether the cache was too small, at which sync, and the files."""
    for mode, spill in [(mode, 0) for mode in MODES] + [("delete", 3)]:
        rows = 20 if spill == 0 else 60
        for at in range(1, MOST_SYNCS[spill]):
            data, journal, was = killed(folder, size, mode, rows, spill, at)
            if not was:
                break
            yield size, mode, spill, at, data, journal


def said(made, journals):
    """What journal_format says of each of these journals, as lines."""
    fed = b"".join(len(journal).to_bytes(4, "big") + journal for journal in journals)
    out = subprocess.run(["rt", "try", "--seconds", "1200"], cwd=made, input=fed, capture_output=True)
    found = []
    for line in out.stdout.decode().splitlines():
        if line.split()[:1] in (["cold"], ["foreign"], ["play"]):
            found.append([line])
        elif line.split()[:1] == ["page"]:
            found[-1].append(line)
    assert len(found) == len(journals), f"{len(found)} of {len(journals)}: {out.stdout[-300:]} {out.stderr[-2000:]}"
    return found


def compare(seen, folder, found, made):
    """Counts what becomes of each of these cases."""
    for (size, mode, spill, at, data, journal), lines in zip(found, said(made, [case[5] for case in found])):
        where = f"{size} {mode} spill {spill} sync {at}"
        kind = lines[0].split()[0]
        if kind == "foreign":
            assert journal[:8] == MAGIC and parts_of(journal, size), where
            seen["refused, of several parts" if spill else f"refused, with older bytes behind it ({mode})"] += 1
            continue
        ours = played(data, journal, lines) if kind == "play" else data
        assert ours == recovered(folder, data, journal), f"{where}: sqlite3 recovers something else"
        seen[f"{kind}, the same as sqlite3"] += 1


def main():
    if shutil.which("strace") is None:
        print("no strace: nothing done")
        return
    seen = collections.Counter()
    with tempfile.TemporaryDirectory() as folder:
        made = program(folder, "made", ["journal_format"], PROGRAM)
        for size in SIZES:
            found = list(cases(folder, size))
            seen["no journal"] += sum(case[5] is None for case in found)
            compare(seen, folder, [case for case in found if case[5] is not None], made)
            print(f"pages of {size} bytes: as it should be", flush=True)
    for what, count in sorted(seen.items()):
        print(f"{count} {what}")


if __name__ == "__main__":
    main()
