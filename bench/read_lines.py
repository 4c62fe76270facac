#!/usr/bin/env python3
"""Has shell_lang read two `put` lines again and again, beside a reader of the same grammar in Python, and prints how many
lines a second each has read.

Usage: bench/read_lines.py. Needs `rt`. One line has 20 bytes and the other 60,000, most of them in one text without
escapes. Of five runs the fastest counts. The program is a crate that is made in a folder of its own, beside copies of
shell_lang and of what it stands on, and is proved there before it is built, over the work that earlier checks of those
crates have kept; the repository stays as it is.
"""
import os
import re
import tempfile
import time

from sqlite_files import program, run

RUNS = 5
LINES = [(20, 100_000), (60_000, 200)]  # bytes of a line, and how often it is read in a run

PROGRAM = """//! Made by bench/read_lines.py.
#![tactic(auto)]

use shell_lang::read_command;
use std::alloc::{{AllocError, Global}};
use std::io;
use std::process::ExitCode;
use std::time::{{Clock, Instant}};

/// A line of so many bytes that puts a row of one text.
fn long_line(alloc: Global, len: usize) -> Result<Vec<u8>, AllocError> {{
    let mut line = Vec::from_slice(alloc, b"put t 1 t:")?;
    for _ in 10..len {{
        line.push(b'x')?;
    }}
    Ok(line)
}}

/// How often the line was read.
fn count(alloc: Global, line: &[u8], rounds: usize) -> usize {{
    let mut total = 0usize;
    for _ in 0..rounds {{
        if read_command(alloc, line).is_ok() {{
            total = total.wrapping_add(1);
        }}
    }}
    total
}}

fn timed<R: AllocGlobal + Print + Clock>(rt: &R, len: usize, rounds: usize) -> io::Result<()> {{
    let line = long_line(rt.alloc(), len)?;
    let start = Instant::now(rt)?;
    let total = count(rt.alloc(), line.as_slice(), rounds);
    let nanos = start.elapsed(rt)?.as_nanos();
    println!(rt; "{{total}} {{nanos}}")
}}

fn main(rt: HostRuntime) -> ExitCode {{
    let answers = [{timed}];
    if answers.iter().any(|answer| answer.is_err()) {{
        return ExitCode::FAILURE;
    }}
    ExitCode::SUCCESS
}}
"""

NAME = re.compile(rb"(?!sqlite_)[a-z][a-z0-9_]{0,63}")
NUMBER = re.compile(rb"0|-?[1-9][0-9]{0,18}")
ESCAPE = re.compile(rb"%([0-9A-Fa-f]{2})")
ALONE = {b"tables", b"begin", b"commit", b"rollback", b"reopen"}


def read_name(word):
    if not NAME.fullmatch(word):
        raise ValueError
    return word


def read_number(word):
    if not NUMBER.fullmatch(word) or not -(2**63) <= int(word) < 2**63:
        raise ValueError
    return int(word)


def read_value(word):
    if word == b"null":
        return None
    kind, rest = word[:2], word[2:]
    if kind == b"i:":
        return read_number(rest)
    if kind == b"t:":
        return ESCAPE.sub(lambda found: bytes.fromhex(found[1].decode()), rest).decode()
    if kind == b"b:" and re.fullmatch(rb"[0-9A-Fa-f]*", rest):
        return bytes.fromhex(rest.decode())
    raise ValueError


def read_words(words):
    """The command that the words give."""
    verb, *rest = words
    if verb in ALONE and not rest:
        return (verb,)
    table = read_name(rest[0])
    if verb == b"create" and 1 <= len(rest) - 1 <= 32 and len(set(rest[1:])) == len(rest) - 1:
        return verb, table, [read_name(word) for word in rest[1:]]
    if verb in (b"drop", b"count") and len(rest) == 1:
        return verb, table
    rowid = read_number(rest[1])
    if verb in (b"get", b"del") and len(rest) == 2:
        return verb, table, rowid
    if verb == b"scan" and len(rest) == 3:
        return verb, table, rowid, read_number(rest[2])
    if verb == b"put" and 1 <= len(rest) - 2 <= 32:
        return verb, table, rowid, [read_value(word) for word in rest[2:]]
    raise ValueError


def read_line(line):
    """The connection and the command of a line, or None."""
    try:
        line.decode()
        named = re.match(rb"@(0|[1-9][0-9]{0,2}) ", line)
        text = line[named.end():] if named else line
        return int(named[1]) if named else 1, read_words(text.split(b" "))
    except (ValueError, IndexError):
        return None


def by_python(size, rounds):
    """The nanoseconds that the reader in Python takes for so many lines."""
    line = b"put t 1 t:" + b"x" * (size - 10)
    assert read_line(line) == (1, (b"put", b"t", 1, ["x" * (size - 10)]))
    start = time.perf_counter_ns()
    for _ in range(rounds):
        read_line(line)
    return time.perf_counter_ns() - start


def built(folder):
    """Makes the crate, and returns what it was built to."""
    calls = ", ".join(f"timed(&rt, {size}, {rounds})" for size, rounds in LINES)
    made = program(folder, "read_lines", ["shell_lang"], PROGRAM.format(timed=calls))
    run(made, "rt", "run")
    return os.path.join(made, "out", "read_lines")


def main():
    with tempfile.TemporaryDirectory() as folder:
        path = built(folder)
        ours, python = {}, {}
        for _ in range(RUNS):
            for (size, rounds), line in zip(LINES, run(folder, path).splitlines(), strict=True):
                total, nanos = map(int, line.split())
                assert total == rounds, f"{total} lines of {rounds}"
                ours[size] = min(ours.get(size, nanos), nanos)
                taken = by_python(size, rounds)
                python[size] = min(python.get(size, taken), taken)
        for size, rounds in LINES:
            rates = [rounds * 1_000_000_000 / nanos[size] for nanos in (ours, python)]
            print(f"lines of {size} bytes: {rates[0]:,.0f} a second, in Python {rates[1]:,.0f}")


if __name__ == "__main__":
    main()
