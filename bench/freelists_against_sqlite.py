#!/usr/bin/env python3
"""Has sqlite3 write databases with freelists and overflow chains, and page_pool and payload_chain go over them.

Usage: bench/freelists_against_sqlite.py. Needs `sqlite3` and `rt`; without sqlite3 it says so and does nothing. The
freelists and chains are read here too, by the published rule, and what the chains have to hold is what sqlite3 prints of
the rows. Every free page is taken, in the order that the rule gives, and they are given back in another order. The pages
then have the checksum of those that are laid out here by the same rule, in which sqlite3 finds nothing wrong, as many
free pages as before, and the same rows.
The comparison is a test that is written into a copy of the crate and run there by `rt try --test`; the repository
stays as it is.
"""
import os
import random
import re
import shutil
import subprocess
import sys
import tempfile

from sqlite_files import copy_of, sqlite, varint

SPACES = [(512, 0), (512, 32), (1024, 8), (4096, 0)]  # the size of a page, and how much of it is reserved
ROWS = {512: 260, 1024: 300, 4096: 300}

TEST = """//! The freelists and chains of databases that sqlite3 wrote.

use crate::read_chain;
use db_format::Bytes;
use page_pool::{{MemSpace, PageSpace, give_page, take_page}};
use std::alloc::Global;
use std::test::Fail;

/// Bytes that stand on a page at a place.
type Patch = (u32, usize, &'static [u8]);

fn space_of(alloc: Global, size: u32, reserved: u8, pages: u32, patches: &[Patch]) -> Result<MemSpace, Fail> {{
    let mut space = MemSpace::new(alloc, size, reserved)?;
    for number in 1..=pages {{
        let _ = space.grow()?;
        let mut page = vec![in alloc; 0u8; size as usize]?;
        for (at, place, bytes) in patches {{
            if *at == number {{
                for (slot, byte) in page.iter_mut().skip(*place).zip(bytes.iter()) {{
                    *slot = *byte;
                }}
            }}
        }}
        space.put(number, &page)?;
    }}
    Ok(space)
}}

fn checksum(alloc: Global, space: &mut MemSpace, size: usize) -> Result<u32, Fail> {{
    let mut value: u32 = 0;
    for number in 1..=space.size() {{
        let mut page = vec![in alloc; 0u8; size]?;
        space.get(number, &mut page)?;
        for byte in page.iter() {{
            value = value.wrapping_mul(31).wrapping_add(u32::from(*byte));
        }}
    }}
    Ok(value)
}}

{tests}
"""

ONE = """
const PATCHES_{at}: &[Patch] = &[{patches}];

/// The first page of each chain, its length, and a checksum of its bytes.
const CHAINS_{at}: &[(u32, u64, u32)] = &[{chains}];

const TAKEN_{at}: &[u32] = &[{taken}];

const GIVEN_{at}: &[u32] = &[{given}];

#[test]
fn database_{at}(rt: HostRuntime) -> Result<(), Fail> {{
    let mut space = space_of(rt.alloc(), {size}, {reserved}, {pages}, PATCHES_{at})?;
    for (first, len, sum) in CHAINS_{at} {{
        let mut out = Bytes::from_vec(Vec::new(rt.alloc()));
        read_chain(rt.alloc(), &mut space, *first, *len, &mut out)?;
        let mut value: u32 = 0;
        for byte in out.as_slice().iter() {{
            value = value.wrapping_mul(31).wrapping_add(u32::from(*byte));
        }}
        assert!(rt; value == *sum, "the chain of {{first}}");
    }}
    for number in TAKEN_{at} {{
        assert!(rt; take_page(rt.alloc(), &mut space)? == *number, "{{number}}");
    }}
    for number in GIVEN_{at} {{
        give_page(rt.alloc(), &mut space, *number)?;
    }}
    assert!(rt; checksum(rt.alloc(), &mut space, {size})? == {sum});
    Ok(())
}}
"""


def checksum(data):
    value = 0
    for byte in data:
        value = (value * 31 + byte) & 0xFFFFFFFF
    return value


class Database:
    """The pages of a database, with the freelist in them."""

    def __init__(self, data, size, reserved):
        self.data, self.size, self.usable = bytearray(data), size, size - reserved

    def word(self, number, place):
        at = (number - 1) * self.size + place
        return int.from_bytes(self.data[at : at + 4], "big")

    def set(self, number, place, value):
        at = (number - 1) * self.size + place
        self.data[at : at + 4] = value.to_bytes(4, "big")

    def take(self):
        trunk = self.word(1, 32)
        leaves = self.word(trunk, 4)
        self.set(1, 36, self.word(1, 36) - 1)
        if leaves == 0:
            self.set(1, 32, self.word(trunk, 0))
            return trunk
        self.set(trunk, 4, leaves - 1)
        return self.word(trunk, 8 + 4 * (leaves - 1))

    def give(self, number):
        trunk = self.word(1, 32)
        if trunk and self.word(trunk, 4) < self.usable // 4 - 8:
            leaves = self.word(trunk, 4)
            self.set(trunk, 8 + 4 * leaves, number)
            self.set(trunk, 4, leaves + 1)
        else:
            at = (number - 1) * self.size
            self.data[at : at + self.size] = bytes(self.size)
            self.set(number, 0, trunk)
            self.set(1, 32, number)
        self.set(1, 36, self.word(1, 36) + 1)

    def chain(self, first, length):
        found = b""
        while len(found) < length:
            at = (first - 1) * self.size
            found += self.data[at + 4 : at + self.usable]
            first = self.word(first, 0)
        assert first == 0
        return bytes(found[:length])

    def cells(self, number):
        """The payload length, the local part and the first overflow page of each row of a tree, in order."""
        page = self.data[(number - 1) * self.size : number * self.size]
        head = 100 if number == 1 else 0
        count = int.from_bytes(page[head + 3 : head + 5], "big")
        first = head + (12 if page[head] == 5 else 8)
        places = [int.from_bytes(page[first + 2 * i : first + 2 * i + 2], "big") for i in range(count)]
        if page[head] == 5:
            children = [int.from_bytes(page[at : at + 4], "big") for at in places]
            children.append(int.from_bytes(page[head + 8 : head + 12], "big"))
            return [cell for child in children for cell in self.cells(child)]
        found = []
        for at in places:
            length, at = varint(page, at)
            _, at = varint(page, at)
            local = self.local(length)
            over = int.from_bytes(page[at + local : at + local + 4], "big") if local < length else 0
            found.append((length, bytes(page[at : at + local]), over))
        return found

    def local(self, length):
        most, least = self.usable - 35, (self.usable - 12) * 32 // 255 - 23
        if length <= most:
            return length
        even = least + (length - least) % (self.usable - 4)
        return even if even <= most else least


def script(rng, size, reserved):
    lines = [f"PRAGMA page_size={size};", "PRAGMA secure_delete=ON;", "CREATE TABLE gone(a);", "CREATE TABLE kept(a);", "BEGIN;"]
    for at in range(ROWS[size]):
        lines.append(f"INSERT INTO gone VALUES(zeroblob({rng.randrange(4 * size)}));")
        if at % 20 == 0:
            data = bytes(rng.randrange(256) for _ in range(rng.choice([3, size - 36, size, 3 * size + rng.randrange(size)])))
            lines.append(f"INSERT INTO kept VALUES(x'{data.hex()}');")
    lines += ["COMMIT;", "DELETE FROM gone WHERE rowid % 5;", "DROP TABLE gone;" if size != 1024 else ""]
    reserve = [f".filectrl reserve_bytes {reserved}"] if reserved else []
    return "\n".join(reserve + lines)


def text(data):
    return 'b"' + "".join(chr(b) if 0x20 <= b < 0x7F and b not in b'"\\' else f"\\x{b:02x}" for b in data) + '"'


def patches(data, size):
    found = []
    for number in range(1, len(data) // size + 1):
        page = bytes(data[(number - 1) * size : number * size])
        for one in re.finditer(rb"(?:[^\0]|\0(?!\0{11}))+", page, re.DOTALL):
            if one[0].strip(b"\0"):
                found.append(f"({number}, {one.start()}, {text(one[0])})")
    return ", ".join(found)


def case_of(path, at, size, reserved, rng):
    sqlite(path, script(rng, size, reserved))
    with open(path, "rb") as file:
        data = file.read()
    assert sqlite(path, "PRAGMA integrity_check;") == "ok\n" and data[20] == reserved, f"{data[20]} reserved bytes"
    before = Database(data, size, reserved)
    root = int(sqlite(path, "SELECT rootpage FROM sqlite_schema WHERE name = 'kept';"))
    blobs = [bytes.fromhex(line) for line in sqlite(path, "SELECT hex(a) FROM kept ORDER BY rowid;").split()]
    chains = []
    for (length, local, over), blob in zip(before.cells(root), blobs, strict=True):
        if over:
            rest = before.chain(over, length - len(local))
            assert (local + rest).endswith(blob), "the chain of a row"
            chains.append(f"({over}, {len(rest)}, {checksum(rest)})")
    free = int(sqlite(path, "PRAGMA freelist_count;"))
    after = Database(data, size, reserved)
    trunks, trunk = 0, after.word(1, 32)
    while trunk:
        trunks, trunk = trunks + 1, after.word(trunk, 0)
    taken = [after.take() for _ in range(free)]
    assert after.word(1, 32) == 0 and after.word(1, 36) == 0 and len(set(taken)) == free
    given = rng.sample(taken, free)
    for number in given:
        after.give(number)
    copy = path + ".given"
    with open(copy, "wb") as file:
        file.write(after.data)
    assert sqlite(copy, "PRAGMA integrity_check;") == "ok\n"
    assert int(sqlite(copy, "PRAGMA freelist_count;")) == free
    ask = "SELECT hex(a) FROM kept ORDER BY rowid;"
    assert sqlite(copy, ask) == sqlite(path, ask)
    print(f"page size {size}, {reserved} reserved: {free} free pages in {trunks} trunks, {len(chains)} chains", flush=True)
    return ONE.format(
        at=at,
        size=size,
        reserved=reserved,
        pages=len(data) // size,
        patches=patches(data, size),
        chains=", ".join(chains),
        taken=", ".join(map(str, taken)),
        given=", ".join(map(str, given)),
        sum=checksum(after.data),
    )


def main():
    if not shutil.which("sqlite3"):
        print("sqlite3 is missing: nothing was compared")
        return
    rng = random.Random(3)
    with tempfile.TemporaryDirectory() as folder:
        tests = [
            case_of(os.path.join(folder, f"{at}.db"), at, size, reserved, rng) for at, (size, reserved) in enumerate(SPACES)
        ]
        copy = copy_of(os.path.join(folder, "copy"), "payload_chain", "against_sqlite")
        with open(os.path.join(copy, "src", "against_sqlite.rt"), "w") as file:
            file.write(TEST.format(tests="\n".join(tests)))
        run = subprocess.run(["rt", "try", "--test"], cwd=copy, capture_output=True, text=True)
        print(run.stdout[-2000:], run.stderr[-3000:])
        if run.returncode != 0:
            sys.exit("page_pool or payload_chain and sqlite3 differ, or the test did not run")
        print("all of these agree")


main()
