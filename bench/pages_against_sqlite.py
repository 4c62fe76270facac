#!/usr/bin/env python3
"""Has sqlite3 write databases whose rows come, go and grow, and tree_page read every page of their trees.

Usage: bench/pages_against_sqlite.py. Needs `sqlite3` and `rt`; without sqlite3 it says so and does nothing. The pages
are parsed here too, by the published rule. What their cells have to hold is what sqlite3 prints of the rows: the
rowids of the leaves in the order of the tree, and the records, which are spelled here from the printed values, local
part and overflow chain together. What tree_page reads of a page has to be what was parsed of it. The cells have to
fit on that page again; what is written of them is read as the same, and has the checksum of the page that is laid out
here, and in a database of these pages sqlite3 finds nothing wrong and the same rows. The pages of an index are refused.
The comparison is a test that is written into a copy of the crate and run there by `rt try --test`; the repository
stays as it is.
"""
import os
import random
import re
import shutil
import struct
import subprocess
import sys
import tempfile

from sqlite_files import copy_of, sqlite, varint

PAGES = {512: (900, 1500), 1024: (300, 900), 4096: (200, 600), 65536: (120, 300)}  # rows at first, and changes then
TABLES = 9
GAP = 12  # so many zeros are left out of a literal


# What sqlite3 is told.


def payload(rng, size):
    """A blob or a text that makes a row of about a length: any, one near a bound of the local part, or a chain's."""
    most = size - 35
    least = (size - 12) * 32 // 255 - 23
    bounds = [most, most + 1, most - 1, least, size - 4, 2 * (size - 4), most + size - 4]
    length = rng.choice([0, 1, 2, 3, rng.randrange(12), rng.randrange(60), rng.randrange(200), None, None])
    if length is None:
        length = max(0, rng.choice([*bounds, *bounds, rng.randrange(most), rng.randrange(4 * size)]) - rng.randrange(12))
        if size == 65536 and rng.randrange(2):
            length = rng.randrange(3000)
    data = bytearray(rng.randrange(256) for _ in range(length)) if length < 300 else bytearray(length)
    for _ in range(min(length, 30)):
        data[rng.randrange(length)] = rng.randrange(256)
    if rng.randrange(3):
        return f"x'{data.hex()}'"
    return "'" + "".join(chr(0x21 + b % 94) for b in data[:300]).replace("'", "''") + "'"


def small(rng):
    number = rng.getrandbits(rng.randrange(1, 64))
    return rng.choice(["NULL", "0", "1", "-1", "0.5", "-1e300", str(number), f"-{number}"])


def rowid(rng, near):
    if rng.randrange(4):
        return near
    return rng.choice([1, -1]) * rng.getrandbits(rng.randrange(1, 64))


def script(rng, size, count, changes):
    """The tables, the rows at first, and then rows that come, go and change."""
    names = [f"{'table_of_a_long_name_' * (i % 3)}t{i}" for i in range(TABLES)]
    yield f"PRAGMA page_size={size}; PRAGMA synchronous=OFF;"
    yield from (f"CREATE TABLE {name}(a);" for name in names)
    yield "CREATE TABLE rows(a, b); CREATE TABLE one(a); INSERT INTO one VALUES(7);"
    yield "CREATE TABLE keyed(a, b); CREATE INDEX by_b ON keyed(b);"
    yield "BEGIN;"
    for i in range(40):
        yield f"INSERT INTO keyed VALUES({i}, x'{rng.randbytes(20).hex()}');"
    for i in range(count):
        yield f"INSERT OR IGNORE INTO rows(rowid, a, b) VALUES({rowid(rng, 3 * i)}, {payload(rng, size)}, {small(rng)});"
    yield "COMMIT;"
    some = "rowid = (SELECT rowid FROM rows ORDER BY rowid LIMIT 1 OFFSET {})"
    for _ in range(changes):
        one = some.format(rng.randrange(count))
        kind = rng.randrange(6)
        if kind == 0:
            yield f"DELETE FROM rows WHERE {one};"
        elif kind == 1:
            yield f"UPDATE rows SET a = {payload(rng, size)} WHERE {one};"
        elif kind <= 3:  # a little shorter, which leaves fragments
            yield f"UPDATE rows SET a = substr(a, 1, max(0, length(a) - {rng.randrange(1, 9)})) WHERE {one};"
        elif kind == 4:
            yield f"UPDATE rows SET b = {small(rng)} WHERE {one};"
        else:
            near = rng.randrange(3 * count)
            yield f"INSERT OR IGNORE INTO rows(rowid, a, b) VALUES({rowid(rng, near)}, {payload(rng, size)}, {small(rng)});"
    yield f"DROP TABLE {names[3]};"


# What sqlite3 prints, spelled as records.

PRINT = (
    "typeof({0}) || ':' || CASE typeof({0}) WHEN 'real' THEN hex(ieee754_to_blob({0})) "
    "WHEN 'integer' THEN {0} WHEN 'null' THEN '' ELSE hex({0}) END"
)


def printed(path, table, columns):
    cells = ", ".join(["rowid", *(PRINT.format(c) for c in columns)])
    lines = sqlite(path, f"SELECT {cells} FROM {table} ORDER BY rowid;").splitlines()
    return [(int(key), spelled(values)) for key, *values in (line.split("|") for line in lines)]


def spelled(values):
    """The record of a row's printed values."""
    kinds, bodies = zip(*map(serial, values))
    head = b"".join(put_varint(kind) for kind in kinds)
    size = 1 + len(head)
    while len(put_varint(size)) + len(head) != size:
        size += 1
    return put_varint(size) + head + b"".join(bodies)


def serial(text):
    kind, value = text.split(":", 1)
    if kind == "null":
        return 0, b""
    if kind == "real":
        return 7, bytes.fromhex(value)
    if kind == "integer":
        number = int(value)
        if number in (0, 1):
            return 8 + number, b""
        for code, size in enumerate([1, 2, 3, 4, 6, 8], 1):
            if -(1 << 8 * size - 1) <= number < 1 << 8 * size - 1:
                return code, number.to_bytes(size, "big", signed=True)
    data = bytes.fromhex(value)
    return 2 * len(data) + (13 if kind == "text" else 12), data


def put_varint(value):
    assert value < 1 << 56
    text = [value & 0x7F]
    while value := value >> 7:
        text.append(value & 0x7F | 0x80)
    return bytes(reversed(text))


# The pages, parsed.


def big(data, at, size):
    return int.from_bytes(data[at : at + size], "big")


def signed(value):
    return value - (1 << 64) if value >> 63 else value


def local_size(usable, length):
    if length <= usable - 35:
        return length
    least = (usable - 12) * 32 // 255 - 23
    size = least + (length - least) % (usable - 4)
    return size if size <= usable - 35 else least


def laid_out(page, number, texts):
    """The page with these cells from its end on, the first one last, and zeros between the pointers and them."""
    head = 100 if number == 1 else 0
    new = bytearray(page[:head] + bytes(len(page) - head))
    size = 12 if page[head] == 5 else 8
    end = len(page)
    for i, text in enumerate(texts):
        end -= max(4, len(text))
        new[end : end + len(text)] = text
        new[head + size + 2 * i : head + size + 2 * i + 2] = end.to_bytes(2, "big")
    new[head : head + 8] = struct.pack(">BHHHB", page[head], 0, len(texts), end % 65536, 0)
    new[head + 8 : head + size] = page[head + 8 : head + size]
    return bytes(new)


def checksum(page, number):
    """Of the b-tree page, without the header of the database."""
    value = 0
    for byte in page[100 if number == 1 else 0 :]:
        value = (31 * value + byte) % 2**32
    return value


class Tree:
    """The pages of a table b-tree, in the order of its rowids."""

    def __init__(self, data, size, root):
        self.data, self.size = data, size
        self.leaves, self.inners, self.rows, self.laid = [], [], [], {}
        self.walk(root, None, None)

    def page(self, number):
        return self.data[(number - 1) * self.size : number * self.size]

    def walk(self, number, low, high):
        page = self.page(number)
        head = 100 if number == 1 else 0
        kind, count = page[head], big(page, head + 3, 2)
        first = head + (12 if kind == 5 else 8)
        places = [big(page, first + 2 * i, 2) for i in range(count)]
        if kind == 5:
            cells = [(big(page, at, 4), signed(varint(page, at + 4)[0])) for at in places]
            right = big(page, head + 8, 4)
            self.inners.append((number, cells, right))
            self.laid[number] = laid_out(page, number, [page[at : varint(page, at + 4)[1]] for at in places])
            for child, key in [*cells, (right, high)]:
                self.walk(child, low, key)
                low = key
            return
        assert kind == 13, f"page {number} is of no table"
        cells, texts = [], []
        for at in places:
            begin = at
            length, at = varint(page, at)
            key, at = varint(page, at)
            local = local_size(self.size, length)
            over = big(page, at + local, 4) if local < length else 0
            texts.append(page[begin : at + local + (4 if local < length else 0)])
            key = signed(key)
            assert (low is None or low < key) and (high is None or key <= high), f"page {number}: {key}"
            cells.append((key, length, at, local, over))
            self.rows.append((key, page[at : at + local] + self.rest(over, length - local), over))
        self.leaves.append((number, cells))
        self.laid[number] = laid_out(page, number, texts)

    def rest(self, over, length):
        text = b""
        while over:
            page = self.page(over)
            over = big(page, 0, 4)
            text += page[4 : self.size]
        assert len(text) >= length and len(text) - length < self.size - 4
        return text[:length]


def holes(page, head):
    """Whether the page has freeblocks, and how many bytes of fragments."""
    return big(page, head + 1, 2) != 0, page[head + 7]


# The test.

TEST = """//! Made by bench/pages_against_sqlite.py.

use crate::{{PageCells, fits, read_page, write_page}};
use db_format::FormatFault;
use std::alloc::{{AllocError, Global}};
use std::test::Fail;

type Patch = (usize, &'static [u8]);

/// A cell of a leaf: its rowid, the length of its payload, the place and the length of its local part, and its
/// overflow page.
type Row = (i64, u64, usize, usize, u32);

fn page_of(alloc: Global, size: usize, patches: &[Patch]) -> Result<Vec<u8>, AllocError> {{
    let mut page = vec![in alloc; 0; size]?;
    for (place, patch) in patches {{
        for (slot, byte) in page.iter_mut().skip(*place).zip(patch.iter()) {{
            *slot = *byte;
        }}
    }}
    Ok(page)
}}

fn read(alloc: Global, page: &[u8], number: u32) -> Result<PageCells, FormatFault> {{
    if 480 <= page.len() && page.len() <= 65536 {{
        read_page(alloc, page, number, page.len() as u32)
    }} else {{
        Err(FormatFault::Memory)
    }}
}}

/// The cells written on a page of their own.
fn written(alloc: Global, cells: &PageCells, size: usize, number: u32) -> Result<Option<Vec<u8>>, AllocError> {{
    let mut page = vec![in alloc; 0x5a; size]?;
    if 480 <= page.len() && page.len() <= 65536 && fits(cells, number, size as u32) {{
        write_page(cells, number, size as u32, &mut page);
        return Ok(Some(page));
    }}
    Ok(None)
}}

fn is_leaf(cells: &PageCells, page: &[u8], rows: &[Row]) -> bool {{
    match cells {{
        PageCells::Leaf(cells) => {{
            let mut pairs = cells.as_slice().iter().zip(rows.iter());
            cells.as_slice().len() == rows.len()
                && pairs.all(|(cell, (rowid, payload_len, place, size, overflow))| {{
                    cell.rowid == *rowid
                        && cell.payload_len == *payload_len
                        && cell.overflow == *overflow
                        && *place + *size <= page.len()
                        && cell.local.as_slice() == &page[*place..*place + *size]
                }})
        }}
        PageCells::Interior {{ .. }} => false,
    }}
}}

fn is_interior(page: &PageCells, children: &[(u32, i64)], last: u32) -> bool {{
    match page {{
        PageCells::Interior {{ cells, right }} => {{
            let mut pairs = cells.as_slice().iter().zip(children.iter());
            *right == last
                && cells.as_slice().len() == children.len()
                && pairs.all(|(cell, (child, rowid))| cell.child == *child && cell.rowid == *rowid)
        }}
        PageCells::Leaf(_) => false,
    }}
}}

/// The same cells, wherever they stand.
fn is_same(some: &PageCells, other: &PageCells) -> bool {{
    match (some, other) {{
        (PageCells::Leaf(some), PageCells::Leaf(other)) => {{
            let mut pairs = some.as_slice().iter().zip(other.as_slice());
            some.as_slice().len() == other.as_slice().len()
                && pairs.all(|(a, b)| {{
                    a.rowid == b.rowid
                        && a.payload_len == b.payload_len
                        && a.overflow == b.overflow
                        && a.local.as_slice() == b.local.as_slice()
                }})
        }}
        (PageCells::Interior {{ cells, right }}, PageCells::Interior {{ cells: others, right: other }}) => {{
            cells.as_slice() == others.as_slice() && *right == *other
        }}
        _ => false,
    }}
}}

/// Of the b-tree page, without the header of the database.
fn checksum(page: &[u8], number: u32) -> u32 {{
    let front = if number == 1 {{ 100 }} else {{ 0 }};
    let mut value: u32 = 0;
    for byte in page.iter().skip(front) {{
        value = value.wrapping_mul(31).wrapping_add(u32::from(*byte));
    }}
    value
}}

/// A page: its size, its number, and the checksum of its cells as they are written.
#[derive(Clone, Copy)]
struct Spot {{
    size: usize,
    number: u32,
    sum: u32,
}}

/// Whether the cells fit on their page again, and are read there as the same.
fn comes_back(alloc: Global, cells: &PageCells, spot: &Spot) -> Result<bool, Fail> {{
    let Some(page) = written(alloc, cells, spot.size, spot.number)? else {{
        return Ok(false);
    }};
    let again = read(alloc, &page, spot.number)?;
    Ok(is_same(cells, &again) && checksum(&page, spot.number) == spot.sum)
}}

fn leaf(alloc: Global, spot: Spot, patches: &[Patch], rows: &[Row]) -> Result<bool, Fail> {{
    let page = page_of(alloc, spot.size, patches)?;
    let cells = read(alloc, &page, spot.number)?;
    Ok(is_leaf(&cells, &page, rows) && comes_back(alloc, &cells, &spot)?)
}}

fn interior(alloc: Global, spot: Spot, patches: &[Patch], children: &[(u32, i64)], right: u32) -> Result<bool, Fail> {{
    let page = page_of(alloc, spot.size, patches)?;
    let cells = read(alloc, &page, spot.number)?;
    Ok(is_interior(&cells, children, right) && comes_back(alloc, &cells, &spot)?)
}}

fn refused(alloc: Global, size: usize, number: u32, patches: &[Patch]) -> Result<bool, Fail> {{
    let page = page_of(alloc, size, patches)?;
    Ok(matches!(read(alloc, &page, number), Err(FormatFault::Corrupt)))
}}

{tests}
"""


def text(data):
    return 'b"' + "".join(chr(b) if 0x20 <= b < 0x7F and b not in b'"\\' else f"\\x{b:02x}" for b in data) + '"'


def patches(page):
    found = re.finditer(rb"(?:[^\0]|\0(?!\0{%d}))+" % (GAP - 1), page, re.DOTALL)
    return "&[" + ", ".join(f"({one.start()}, {text(one[0])})" for one in found if one[0].strip(b"\0")) + "]"


def number_of(value):
    return "i64::MIN" if value == -(2**63) else str(value)


def spot(laid, number):
    return f"Spot {{ size: {len(laid)}, number: {number}, sum: {checksum(laid, number)} }}"


def leaf_check(page, laid, number, cells):
    rows = ", ".join(f"({number_of(key)}, {length}, {at}, {local}, {over})" for key, length, at, local, over in cells)
    return f"leaf(rt.alloc(), {spot(laid, number)}, {patches(page)}, &[{rows}])?"


def interior_check(page, laid, number, cells, right):
    children = ", ".join(f"({child}, {number_of(key)})" for child, key in cells)
    return f"interior(rt.alloc(), {spot(laid, number)}, {patches(page)}, &[{children}], {right})?"


def test_of(name, checks):
    lines = "".join(f"    assert!(rt; {check});\n" for check in checks)
    return f"#[test]\nfn {name}(rt: HostRuntime) -> Result<(), Fail> {{\n{lines}    Ok(())\n}}\n"


class Counts:
    def __init__(self):
        self.leaves = self.interior = self.free = self.broken = self.fragments = 0
        self.rows = self.chains = self.refused = 0

    def __str__(self):
        return (
            f"{self.leaves} leaves and {self.interior} interior pages, {self.free} with freeblocks, {self.broken} with "
            f"fragments ({self.fragments} bytes); {self.rows} rows, {self.chains} with a chain; {self.refused} pages refused"
        )


def checks_of(path, size, rng):
    """The checks of one database, and what they count."""
    sqlite(path, "\n".join(script(rng, size, *PAGES[size])))
    with open(path, "rb") as file:
        data = file.read()
    assert sqlite(path, "PRAGMA integrity_check;") == "ok\n" and big(data, 16, 2) == size % 65536 | size >> 16
    assert data[20] == 0, "reserved bytes"
    tables = [("sqlite_schema", 1, ["type", "name", "tbl_name", "rootpage", "sql"])]
    for line in sqlite(path, "SELECT name, rootpage FROM sqlite_schema WHERE type = 'table';").splitlines():
        name, root = line.split("|")
        columns = sqlite(path, f"SELECT name FROM pragma_table_info('{name}') ORDER BY cid;").split()
        tables.append((name, int(root), columns))
    checks, counts, written = [], Counts(), bytearray(data)
    for name, root, columns in tables:
        tree = Tree(data, size, root)
        rows = printed(path, name, columns)
        assert [key for key, _, _ in tree.rows] == [key for key, _ in rows], f"{name}: rowids"
        for (key, record, over), (_, want) in zip(tree.rows, rows, strict=True):
            assert record == want, f"{name}, row {key}: {record.hex()} is not {want.hex()}"
            counts.chains += over != 0
        page, laid = tree.page, tree.laid
        checks += [leaf_check(page(number), laid[number], number, cells) for number, cells in tree.leaves]
        checks += [interior_check(page(number), laid[number], number, cells, right) for number, cells, right in tree.inners]
        for number, new in laid.items():
            written[(number - 1) * size : number * size] = new
        for number in [number for number, _ in tree.leaves] + [number for number, _, _ in tree.inners]:
            free, fragments = holes(tree.page(number), 100 if number == 1 else 0)
            counts.free += free
            counts.broken += fragments > 0
            counts.fragments += fragments
        counts.rows += len(rows)
        counts.leaves += len(tree.leaves)
        counts.interior += len(tree.inners)
    copy = path + ".written"
    with open(copy, "wb") as file:
        file.write(written)
    assert written != data and sqlite(copy, "PRAGMA integrity_check;") == "ok\n"
    for name, _, columns in tables:
        assert printed(copy, name, columns) == printed(path, name, columns), f"{name}, written"
    for line in sqlite(path, "SELECT rootpage FROM sqlite_schema WHERE type = 'index';").split():
        page = data[(int(line) - 1) * size : int(line) * size]
        checks.append(f"refused(rt.alloc(), {size}, {line}, {patches(page)})?")
        counts.refused += 1
    return checks, counts


def main():
    if not shutil.which("sqlite3"):
        print("sqlite3 is missing: nothing was compared")
        return
    rng = random.Random(2)
    with tempfile.TemporaryDirectory() as folder:
        tests, said = [], []
        for size in PAGES:
            checks, counts = checks_of(os.path.join(folder, f"{size}.db"), size, rng)
            tests += [test_of(f"pages_{size}_{at}", checks[at : at + 20]) for at in range(0, len(checks), 20)]
            said.append(f"page size {size}: {counts}")
            print(said[-1], flush=True)
        copy = copy_of(os.path.join(folder, "copy"), "tree_page", "against_sqlite")
        with open(os.path.join(copy, "src", "against_sqlite.rt"), "w") as file:
            file.write(TEST.format(tests="\n".join(tests)))
        run = subprocess.run(["rt", "try", "--test"], cwd=copy, capture_output=True, text=True)
        print(run.stdout[-2000:], run.stderr[-3000:])
        if run.returncode != 0:
            sys.exit("tree_page and sqlite3 differ, or the test did not run")
        print("all of these agree")


main()
