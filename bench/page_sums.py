#!/usr/bin/env python3
"""Compares the sums of pages that cksum_vfs computes with those of the definition, and prints how many pages each way takes.

Usage: bench/page_sums.py. Needs `rt`; where there is `cc`, a loop in C is timed too. The pages are filled from a generator of
numbers that the program here and the one that is made have in common. What is timed is one pass over a page of 4,096 bytes;
of seven runs the fastest counts. The program is a crate that is made in a folder of its own, beside copies of cksum_vfs and of
what it stands on, and is proved there before it is built, over the work that earlier checks of those crates have kept; the
repository stays as it is.
"""
import os
import shutil
import subprocess
import tempfile
import time

from sqlite_files import program, run

SIZES = [512, 1024, 4096, 65536]
PAGES = 25
ROUNDS = 100_000
RUNS = 7

PROGRAM = """//! Made by bench/page_sums.py.
#![tactic(auto)]

use cksum_vfs::sum;
use std::alloc::{{AllocError, Global}};
use std::io;
use std::process::ExitCode;
use std::time::{{Clock, Instant}};

/// A page from the numbers that follow a seed.
fn page(alloc: Global, seed: u64, size: usize) -> Result<Vec<u8>, AllocError> {{
    let mut bytes = Vec::new(alloc);
    let mut number = seed;
    for _ in 0..size {{
        number = number.wrapping_mul(6_364_136_223_846_793_005).wrapping_add(1_442_695_040_888_963_407);
        bytes.push((number >> 56) as u8)?;
    }}
    Ok(bytes)
}}

fn sums(bytes: &[u8]) -> (u32, u32) {{
    if bytes.len() % 8 == 0 {{ sum(bytes) }} else {{ (0, 0) }}
}}

fn shown<R: AllocGlobal + Print>(rt: &R, size: usize) -> io::Result<()> {{
    for seed in 0..{pages} {{
        let (first, second) = sums(&page(rt.alloc(), seed, size)?);
        println!(rt; "{{first}} {{second}}")?;
    }}
    Ok(())
}}

/// The sums of all rounds, mixed, each of a page with another first byte.
fn mixed(bytes: &mut [u8]) -> u32 {{
    let mut total = 0u32;
    for round in 0..{rounds}u32 {{
        if let Some(first) = bytes.first_mut() {{
            *first = (round % 256) as u8;
        }}
        let (first, second) = sums(bytes);
        total = total.wrapping_mul(31).wrapping_add(first ^ second);
    }}
    total
}}

fn timed<R: AllocGlobal + Print + Clock>(rt: &R) -> io::Result<()> {{
    let mut bytes = page(rt.alloc(), 7, 4096)?;
    let start = Instant::now(rt)?;
    let total = mixed(&mut bytes);
    let nanos = start.elapsed(rt)?.as_nanos();
    println!(rt; "{{total}} {{nanos}}")
}}

fn main(rt: HostRuntime) -> ExitCode {{
    let answers = [{shown}, timed(&rt)];
    if answers.iter().any(|answer| answer.is_err()) {{
        return ExitCode::FAILURE;
    }}
    ExitCode::SUCCESS
}}
"""

LOOP = """#include <stdint.h>
#include <stdio.h>
#include <string.h>
#include <time.h>

static uint32_t mixed(unsigned char *page, size_t size) {
    uint32_t total = 0;
    for (uint32_t round = 0; round < ROUNDS; round++) {
        page[0] = round % 256;
        uint32_t first = 0, second = 0, words[2];
        for (size_t at = 0; at + 8 <= size; at += 8) {
            memcpy(words, page + at, 8);
            first += words[0] + second;
            second += words[1] + first;
        }
        total = total * 31 + (first ^ second);
    }
    return total;
}

int main(void) {
    static unsigned char page[4096];
    uint64_t number = 7;
    for (size_t at = 0; at < sizeof page; at++) {
        number = number * 6364136223846793005u + 1442695040888963407u;
        page[at] = number >> 56;
    }
    struct timespec start, end;
    clock_gettime(CLOCK_MONOTONIC, &start);
    uint32_t total = mixed(page, sizeof page);
    clock_gettime(CLOCK_MONOTONIC, &end);
    printf("%u %lld\\n", total, (end.tv_sec - start.tv_sec) * 1000000000LL + end.tv_nsec - start.tv_nsec);
}
"""


def page(seed, size):
    number, found = seed, bytearray()
    for _ in range(size):
        number = (number * 6364136223846793005 + 1442695040888963407) % 2**64
        found.append(number >> 56)
    return bytes(found)


def sums(data):
    """The sums of pairs of words, as the checksum VFS of SQLite defines them, with the least byte of a word first."""
    first = second = 0
    for at in range(0, len(data) - 7, 8):
        first = (first + int.from_bytes(data[at : at + 4], "little") + second) % 2**32
        second = (second + int.from_bytes(data[at + 4 : at + 8], "little") + first) % 2**32
    return first, second


def built(folder):
    """Makes the crate, and returns what it was built to."""
    calls = ", ".join(f"shown(&rt, {size})" for size in SIZES)
    made = program(folder, "page_sums", ["cksum_vfs"], PROGRAM.format(pages=PAGES, rounds=ROUNDS, shown=calls))
    run(made, "rt", "run")
    return os.path.join(made, "out", "page_sums")


def compared(lines):
    expected = [sums(page(seed, size)) for size in SIZES for seed in range(PAGES)]
    for (size, seed), line, want in zip([(size, seed) for size in SIZES for seed in range(PAGES)], lines, expected, strict=True):
        assert tuple(map(int, line.split())) == want, f"page {seed} of {size} bytes: {line}, not {want}"
    print(f"{len(expected)} pages have the sums of the definition")


def fastest(command, folder):
    """The last line of the command's output is a total and nanoseconds; the total, and the fewest of these."""
    runs = [tuple(map(int, run(folder, *command).splitlines()[-1].split())) for _ in range(RUNS)]
    assert len({total for total, _ in runs}) == 1
    return runs[0][0], min(nanos for _, nanos in runs)


def told(way, nanos, rounds):
    print(f"{way}: {rounds * 1_000_000_000 // nanos:,} pages of 4,096 bytes a second")


def main():
    with tempfile.TemporaryDirectory() as folder:
        path = built(folder)
        compared(run(folder, path).splitlines()[:-1])
        total, nanos = fastest([path], folder)
        told("sum", nanos, ROUNDS)
        if shutil.which("cc"):
            source, loop = os.path.join(folder, "loop.c"), os.path.join(folder, "loop")
            with open(source, "w") as file:
                file.write(LOOP)
            subprocess.run(["cc", "-O2", f"-DROUNDS={ROUNDS}u", "-o", loop, source], check=True)
            same, nanos = fastest([loop], folder)
            assert same == total, f"the loop in C has {same}, not {total}"
            told("a loop in C", nanos, ROUNDS)
        data = page(7, 4096)
        start = time.perf_counter_ns()
        for _ in range(100):
            sums(data)
        told("a loop in Python", time.perf_counter_ns() - start, 100)


main()
