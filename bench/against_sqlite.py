#!/usr/bin/env python3
"""Has sqlite3 write databases of varied rows and tables, and db_format read and write them again.

Usage: bench/against_sqlite.py. Needs `sqlite3` and `rt`; without sqlite3 it says so and does nothing. The records are
cut out of the pages here. What each has to be read as is what sqlite3 prints of it. The comparison is a test that is
written into a copy of the crate and run there by `rt try --test`; the repository stays as it is.
"""
import os
import random
import shutil
import subprocess
import sys
import tempfile

from sqlite_files import copy_of, sqlite, varint

PAGES = [512, 4096, 65536]
ROWS = 120
PLAIN = ["CREATE TABLE t(a)", "CREATE TABLE names ( first , last,middle )", "CREATE TABLE x_1(a1,b_2,c,d,e,f,g,h)"]
OTHER = [
    "CREATE TABLE typed(a INTEGER, b TEXT)",
    "CREATE TABLE keyed(a PRIMARY KEY, b)",
    'CREATE TABLE "quoted"(a)',
    "CREATE TABLE Upper(a)",
    "CREATE TABLE checked(a CHECK (a > 1))",
    "CREATE INDEX i ON t(a)",
    "CREATE VIEW v AS SELECT a FROM t",
]


def spelled(rng):
    """A value as SQL spells it."""
    kind = rng.randrange(6)
    if kind == 0:
        return "NULL"
    if kind <= 2:
        bits = rng.randrange(64)
        return str(rng.choice([0, 1, -1, 1 << bits, -(1 << bits), (1 << bits) - 1, -(1 << bits) - 1, rng.getrandbits(63)]))
    if kind == 3:
        return repr(rng.choice([0.5, -1.25, 3.141592653589793, 1e300, rng.uniform(-1e6, 1e6)]))
    length = rng.choice([0, 1, 2, 57, 58, 100, rng.randrange(150)])
    data = bytes(rng.randrange(256) for _ in range(length))
    if kind == 4:
        return f"x'{data.hex()}'"
    return "'" + "".join(chr(0x20 + b % 95) for b in data).replace("'", "''") + "é" * rng.randrange(2) + "'"


def records(data, size, number):
    """The payloads of a table b-tree, in the order of the rowids."""
    page = data[(number - 1) * size : number * size]
    head = 100 if number == 1 else 0
    kind, cells = page[head], int.from_bytes(page[head + 3 : head + 5], "big")
    first = head + (12 if kind == 5 else 8)
    places = [int.from_bytes(page[first + 2 * i : first + 2 * i + 2], "big") for i in range(cells)]
    if kind == 5:
        below = [int.from_bytes(page[at : at + 4], "big") for at in places]
        below.append(int.from_bytes(page[head + 8 : head + 12], "big"))
        return [record for child in below for record in records(data, size, child)]
    assert kind == 13, f"page {number} is of no table"
    found = []
    for at in places:
        length, at = varint(page, at)
        _, at = varint(page, at)
        if length <= size - 35:
            found.append(page[at : at + length])
        else:
            found.append(None)  # it goes on in an overflow chain, which is not cut out here
    return found


def text(data):
    return 'b"' + "".join(f"\\x{b:02x}" for b in data) + '"'


def item(printed):
    kind, value = printed.split(":", 1)
    if kind == "null":
        return "Item::Null"
    if kind == "integer":
        return "Item::Int(i64::MIN)" if int(value) == -(2**63) else f"Item::Int({value})"
    if kind == "real":
        return f"Item::Real(0x{value})"
    return f"Item::{kind.capitalize()}({text(bytes.fromhex(value))})"


PRINT = (
    "typeof({0}) || ':' || CASE typeof({0}) WHEN 'real' THEN hex(ieee754_to_blob({0})) "
    "WHEN 'integer' THEN {0} WHEN 'null' THEN '' ELSE hex({0}) END"
)


def printed(path, table, columns):
    cells = ", ".join(PRINT.format(c) for c in columns)
    return [line.split("|") for line in sqlite(path, f"SELECT {cells} FROM {table} ORDER BY rowid;").splitlines()]


def cases_of(path, size, rng):
    """The records of one database with what sqlite3 prints of them, its schema texts, and its header."""
    rows = [[spelled(rng) for _ in range(4)] for _ in range(ROWS)]
    script = [f"PRAGMA page_size={size};", *(sql + ";" for sql in PLAIN + OTHER), "CREATE TABLE rows(a,b,c,d);", "BEGIN;"]
    script += [f"INSERT INTO rows VALUES({','.join(row)});" for row in rows]
    script += ["COMMIT;", "DELETE FROM rows WHERE rowid % 7 = 0;", "DROP TABLE names;" if size == 512 else ""]
    sqlite(path, "\n".join(script))
    with open(path, "rb") as file:
        data = file.read()
    schema = printed(path, "sqlite_schema", ["type", "name", "tbl_name", "rootpage", "sql"])
    root = int(sqlite(path, "SELECT rootpage FROM sqlite_schema WHERE name = 'rows';"))
    pairs = list(zip(records(data, size, 1), schema, strict=True))
    pairs += zip(records(data, size, root), printed(path, "rows", "abcd"), strict=True)
    ask = ["page_size", "page_count", "freelist_count", "schema_version"]
    header = [int(sqlite(path, f"PRAGMA {name};")) for name in ask]
    return data, [(payload, row) for payload, row in pairs if payload is not None], header


def create_cases(path):
    """Each text of the schema with the columns that sqlite3 names, and none for those that are not plain."""
    cases = []
    for sql in PLAIN + OTHER:
        name = sql.split("(")[0].split()[2] if sql in PLAIN else None
        columns = sqlite(path, f"SELECT name FROM pragma_table_info('{name}') ORDER BY cid;").split() if name else []
        names = "[" + ", ".join(text(c.encode()) for c in [name, *columns]) + "]" if name else "[]"
        cases.append(f"({text(sql.encode())}, &{names})")
    return cases


TEST = """//! Made by bench/against_sqlite.py.

use crate::{{Header, Value, read_create, read_header, read_record, write_record}};
use std::alloc::Global;
use std::test::Fail;

enum Item {{
    Null,
    Int(i64),
    Real(u64),
    Text(&'static [u8]),
    Blob(&'static [u8]),
}}

fn same(value: &Value, item: &Item) -> bool {{
    match (value, item) {{
        (Value::Null, Item::Null) => true,
        (Value::Int(a), Item::Int(b)) => *a == *b,
        (Value::Real(a), Item::Real(b)) => *a == *b,
        (Value::Text(a), Item::Text(b)) => a.as_slice() == *b,
        (Value::Blob(a), Item::Blob(b)) => a.as_slice() == *b,
        _ => false,
    }}
}}

/// Whether the payload is read as the items, and these are written as the payload.
fn agrees(alloc: Global, payload: &[u8], items: &[Item]) -> Result<bool, Fail> {{
    let record = read_record(alloc, payload)?;
    let values = record.as_slice();
    let written = write_record(alloc, values)?;
    Ok(values.len() == items.len()
        && values.iter().zip(items.iter()).all(|(value, item)| same(value, item))
        && written.as_slice() == payload)
}}

{records}

#[test]
fn headers(rt: HostRuntime) -> Result<(), Fail> {{
    let cases: [([u8; 100], u64, [u32; 4]); {headers}] = [{header_cases}];
    for (first, length, [page, size, free, cookie]) in cases {{
        let Ok(header) = read_header(&first, length, None) else {{
            return Err("a header that was refused".into());
        }};
        assert!(rt; header.page == page && header.size == size, "{{size}}");
        assert!(rt; header.free_pages == free && header.cookie == cookie, "{{size}}");
    }}
    Ok(())
}}

#[test]
fn texts(rt: HostRuntime) -> Result<(), Fail> {{
    let cases: [(&'static [u8], &'static [&'static [u8]]); {texts}] = [{text_cases}];
    for (sql, names) in cases {{
        match read_create(rt.alloc(), sql)? {{
            None => assert!(rt; names.is_empty(), "{{sql:?}}"),
            Some(create) => {{
                assert!(rt; names.len() == 1 + create.columns.as_slice().len(), "{{sql:?}}");
                assert!(rt; create.name.as_slice() == names[0], "{{sql:?}}");
                for (column, name) in create.columns.as_slice().iter().zip(names[1..].iter()) {{
                    assert!(rt; column.as_slice() == *name, "{{sql:?}}");
                }}
            }}
        }}
    }}
    Ok(())
}}
"""


def record_test(number, cases):
    lines = [
        f"    assert!(rt; agrees(rt.alloc(), {text(payload)}, &[{', '.join(map(item, row))}])?);" for payload, row in cases
    ]
    return f"#[test]\nfn records_{number}(rt: HostRuntime) -> Result<(), Fail> {{\n" + "\n".join(lines) + "\n    Ok(())\n}\n"


def main():
    if not shutil.which("sqlite3"):
        print("sqlite3 is missing: nothing was compared")
        return
    rng = random.Random(1)
    with tempfile.TemporaryDirectory() as folder:
        tests, headers, count = [], [], 0
        for size in PAGES:
            path = os.path.join(folder, f"{size}.db")
            data, cases, header = cases_of(path, size, rng)
            for at in range(0, len(cases), 40):
                tests.append(record_test(len(tests), cases[at : at + 40]))
            count += len(cases)
            headers.append(f"(*{text(data[:100])}, {len(data)}, {header})")
            if size == PAGES[-1]:
                texts = create_cases(path)
        source = TEST.format(
            records="\n".join(tests),
            headers=len(headers),
            header_cases=", ".join(headers),
            texts=len(texts),
            text_cases=", ".join(texts),
        )
        copy = copy_of(os.path.join(folder, "copy"), "db_format", "against_sqlite")
        with open(os.path.join(copy, "src", "against_sqlite.rt"), "w") as file:
            file.write(source)
        run = subprocess.run(["rt", "try", "--test"], cwd=copy, capture_output=True, text=True)
        print(run.stdout[-2000:], run.stderr[-3000:])
        if run.returncode != 0:
            sys.exit("db_format and sqlite3 differ, or the test did not run")
        print(f"{count} records, {len(headers)} headers and {len(texts)} schema texts agree")


main()
