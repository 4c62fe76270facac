#!/usr/bin/env python3
"""Reads and changes databases that sqlite3 made by the names of their tables, and compares with what was put into them.

Usage: bench/tables_against_sqlite.py. Needs `sqlite3` and `rt`; without sqlite3 it says so and does nothing. sqlite3 makes databases of
several page sizes, with reserved bytes or none: tables of names and columns alone, with rows of every kind of value, rows on many
pages, rows that were deleted, and a column that was added later; tables with an index, a trigger, types or upper-case names; views, tables
WITHOUT ROWID and with AUTOINCREMENT; and one schema of hundreds of rows. Each plain table is counted and scanned, and single rows are
asked for; the other names have to be refused by their cause. Then tables are listed, dropped and made, rows put and taken out, all is read again,
and sqlite3 checks the pages that are left and prints the same rows; the other tables, the index, the trigger and the view have to be as they
were. The same is done of databases that are begun here. The program is a crate that is made in a folder of its own, over copies of
table_store, shell_lang and of what they stand on, and is run there by `rt try`; the repository stays as it is.
"""
import os
import random
import shutil
import struct
import subprocess
import sys
import tempfile

from sqlite_files import program, sqlite

# the size of a page, and how much of it is reserved
SPACES = [(512, 0), (512, 32), (1024, 8), (4096, 0), (8192, 8), (65536, 0)]

PROGRAM = """//! Made by bench/tables_against_sqlite.py.
#![tactic(auto)]

use db_format::{Bytes, Create};
use shell_lang::{Command, Db, ErrorWord, Reply, RowList, ScanEnd, read_command, write_reply};
use std::alloc::{AllocError, Global};
use std::io::Read;
use std::process::ExitCode;
use table_store::{PageSpace, SpaceFault, TableFault, count, create, drop_table, get, list, put, remove, scan_next};
use page_pool::MemSpace;

/// All bytes of standard input.
fn all_of<R: Read>(alloc: Global, input: &mut R) -> Result<Vec<u8>, AllocError> {
    let mut all = Vec::new(alloc);
    let mut piece = [0u8; 4096];
    for _ in 0..u64::MAX {
        match input.read(&mut piece) {
            Ok(0) => return Ok(all),
            Ok(count) => all.extend_from_slice(&piece[..count.min(4096)])?,
            Err(_) => {}
        }
    }
    Ok(all)
}

fn number_at(bytes: &[u8], place: usize) -> u32 {
    let mut number = 0u32;
    for byte in bytes.iter().skip(place).take(4) {
        number = number.wrapping_mul(256).wrapping_add(u32::from(*byte));
    }
    number
}

fn space_of(alloc: Global, page_size: u32, reserved: u8, bytes: &[u8]) -> Result<MemSpace, SpaceFault> {
    let mut space = MemSpace::new(alloc, page_size, reserved)?;
    let usable = (page_size - u32::from(reserved)) as usize;
    for content in bytes.chunks(page_size as usize) {
        let number = space.grow()?;
        let mut page = vec![in alloc; 0u8; page_size as usize]?;
        for (slot, byte) in page.iter_mut().take(usable).zip(content.iter()) {
            *slot = *byte;
        }
        space.put(number, &page)?;
    }
    Ok(space)
}

/// The rows of a scan, and how it ends.
fn scan(alloc: Global, space: &mut MemSpace, name: &[u8], low: i64, high: i64) -> Result<Reply, TableFault> {
    let mut rows = RowList::from_vec(Vec::new(alloc));
    let mut from = low;
    let mut lines = 0u64;
    for _ in 0..u64::MAX {
        match scan_next(alloc, space, name, from, high)? {
            None => break,
            Some((rowid, values)) => {
                rows.push((rowid, values))?;
                lines += 1;
                if rowid == i64::MAX {
                    break;
                }
                from = rowid + 1;
            }
        }
    }
    Ok(Reply::Rows { rows, last: ScanEnd::End { lines } })
}

fn answer(alloc: Global, space: &mut MemSpace, command: Command) -> Result<Reply, TableFault> {
    match command {
        Command::Get { table, rowid } => match get(alloc, space, table.name.as_slice(), rowid)? {
            Some(values) => Ok(Reply::Row { rowid, values }),
            None => Ok(Reply::Nothing),
        },
        Command::Scan { table, low, high } => scan(alloc, space, table.name.as_slice(), low, high),
        Command::Count { table } => Ok(Reply::Count { rows: count(alloc, space, table.name.as_slice())? }),
        Command::Tables => Ok(Reply::TableLines { tables: list(alloc, space)? }),
        Command::Create { table, columns } => {
            create(alloc, space, &Create { name: table.name, columns })?;
            Ok(Reply::Done)
        }
        Command::Drop { table } => {
            drop_table(alloc, space, table.name.as_slice())?;
            Ok(Reply::Done)
        }
        Command::Put { table, rowid, values } => match put(alloc, space, table.name.as_slice(), rowid, values.as_slice())? {
            true => Ok(Reply::Replaced),
            false => Ok(Reply::New),
        },
        Command::Del { table, rowid } => match remove(alloc, space, table.name.as_slice(), rowid)? {
            true => Ok(Reply::Done),
            false => Ok(Reply::Nothing),
        },
        _ => Ok(Reply::Stopped),
    }
}

fn refused(fault: TableFault) -> Reply {
    match fault {
        TableFault::NoTable => Reply::Error { word: ErrorWord::NoTable },
        TableFault::Foreign => Reply::Error { word: ErrorWord::Foreign },
        TableFault::Exists => Reply::Error { word: ErrorWord::Exists },
        TableFault::Columns => Reply::Error { word: ErrorWord::Columns },
        TableFault::TooLong => Reply::Error { word: ErrorWord::TooLong },
        TableFault::Space(SpaceFault::Failed) => Reply::Fault,
        TableFault::Space(SpaceFault::Memory) => Reply::Memory,
        TableFault::Space(SpaceFault::Bad { page, kept, found }) => Reply::Checksum { db: Db::Main, page, kept, found },
        TableFault::Space(SpaceFault::Corrupt { page }) => Reply::Corrupt { db: Db::Main, page },
        TableFault::Space(SpaceFault::Large { pages }) => Reply::Large { pages },
    }
}

/// Answers each line.
fn answer_all<R: AllocGlobal + Print>(rt: &R, space: &mut MemSpace, text: &[u8]) -> Result<(), TableFault> {
    for line in text.split(|byte| *byte == b'\\n') {
        let Ok((_, command)) = read_command(rt.alloc(), line) else {
            continue;
        };
        let reply = match answer(rt.alloc(), space, command) {
            Ok(reply) => reply,
            Err(fault) => refused(fault),
        };
        let mut out = Bytes::from_vec(Vec::new(rt.alloc()));
        write_reply(&reply, &mut out)?;
        print_bytes(rt, out.as_slice())?;
    }
    Ok(())
}

fn print_bytes<R: AllocGlobal + Print>(rt: &R, bytes: &[u8]) -> Result<(), TableFault> {
    let mut line = String::new(rt.alloc());
    for byte in bytes {
        if *byte != b'\\n' {
            line.push(char::from(*byte))?;
            continue;
        }
        let _said = println!(rt; "{line}");
        line = String::new(rt.alloc());
    }
    Ok(())
}

/// Prints each page in hexadecimal; a byte that stands four times or more is written once, with how often behind it.
fn print_pages<R: AllocGlobal + Print>(rt: &R, space: &mut MemSpace) -> Result<(), TableFault> {
    let mut page = vec![in rt.alloc(); 0u8; space.page_size() as usize]?;
    for number in 1..space.size() + 1 {
        space.get(number, &mut page)?;
        let mut line = String::new(rt.alloc());
        let mut at = 0usize;
        for _ in 0..page.len() {
            if at >= page.len() {
                break;
            }
            let byte = page[at];
            let run = page[at..].iter().take_while(|other| **other == byte).count().max(1);
            let shown = if run < 4 { 1 } else { run };
            let text = if shown == 1 { format!(in rt.alloc(); "{byte:02x}")? } else { format!(in rt.alloc(); "[{byte:02x}*{shown}]")? };
            line.push_str(text.as_str())?;
            at = at.saturating_add(shown);
        }
        let _said = println!(rt; "{line}");
    }
    Ok(())
}

fn main(rt: HostRuntime) -> ExitCode {
    let mut input = rt.stdin();
    let Ok(all) = all_of(rt.alloc(), &mut input) else {
        return ExitCode::FAILURE;
    };
    let page_size = number_at(&all, 0);
    let reserved = number_at(&all, 4) as u8;
    let end = 12usize.saturating_add(number_at(&all, 8) as usize).min(all.len());
    if page_size < 512 || end < 12 {
        return ExitCode::FAILURE;
    }
    let Ok(mut space) = space_of(rt.alloc(), page_size, reserved, &all[12..end]) else {
        return ExitCode::FAILURE;
    };
    if answer_all(&rt, &mut space, &all[end..]).is_err() || print_pages(&rt, &mut space).is_err() {
        return ExitCode::FAILURE;
    }
    ExitCode::SUCCESS
}
"""


# tables that are not plain here, with what is theirs
OTHERS = """
CREATE TABLE indexed(a, b);
CREATE INDEX by_a ON indexed(a);
CREATE TABLE watched(a);
CREATE TRIGGER watch AFTER INSERT ON watched BEGIN DELETE FROM watched WHERE a = 0; END;
CREATE TABLE typed(a INTEGER PRIMARY KEY, b TEXT);
CREATE TABLE numbered(id INTEGER PRIMARY KEY AUTOINCREMENT, b);
CREATE TABLE Mixed(a);
CREATE TABLE "spaced name"(a);
CREATE TABLE without(a PRIMARY KEY, b) WITHOUT ROWID;
CREATE VIEW seen AS SELECT a FROM indexed;
INSERT INTO indexed VALUES(1, 'x'), (2, 'y');
INSERT INTO watched VALUES(5);
INSERT INTO typed VALUES(3, 'z');
INSERT INTO numbered(b) VALUES('n');
INSERT INTO Mixed VALUES(9);
INSERT INTO "spaced name" VALUES(8);
INSERT INTO without VALUES(1, 2);
"""
SAFE = "abcdefghijklmnopqrstuvwxyzABCDEFGHIJKLMNOPQRSTUVWXYZ0123456789-._~"


def literal(value):
    """A value as SQL writes it."""
    if value is None:
        return "NULL"
    if isinstance(value, bytes):
        return f"x'{value.hex()}'"
    if isinstance(value, str):
        return f"CAST(x'{value.encode().hex()}' AS TEXT)"
    return repr(value)


def spelled(value):
    """A value as a reply spells it."""
    if value is None:
        return "null"
    if isinstance(value, float):
        return "real"
    if isinstance(value, int):
        return f"i:{value}"
    if isinstance(value, bytes):
        return f"b:{value.hex()}"
    return "t:" + "".join(chr(byte) if chr(byte) in SAFE else f"%{byte:02X}" for byte in value.encode())


def some_value(rng, usable, written=False):
    """A value of any kind, some of them too long for their page."""
    kinds = [None, 0, 1, -1, 127, 128, -32769, 2**31, -(2**47), 2**62, -(2**63), "", "short", "\u00e4 \u20ac", b"", b"\x00\xff"]
    if rng.randrange(25) == 0:
        length = min(rng.choice([usable // 5, usable, 3 * usable]), 65_536)
        return rng.choice([rng.randbytes(length), "x" * length])
    return rng.choice(kinds + ([] if written else [1.5, -0.25]))


def plain_tables(rng, usable):
    """The plain tables of a database: their columns, and their rows by rowid."""
    tables = {"t": (["a", "b", "c"], {}), "empty": (["a"], {}), "wide": ([f"c{at}" for at in range(32)], {}), "z_9": (["only"], {})}
    most = 250 if usable < 4000 else 60 if usable < 40_000 else 12
    for rowid in rng.sample(range(-300, 600), most) + [-(2**63), 2**63 - 1]:
        tables["t"][1][rowid] = [some_value(rng, min(usable, 6000)) for _ in range(3)]
    tables["t"][1][2**63 - 1][2] = "y" * 65_536
    for rowid in range(1, 40 if usable < 40_000 else 5):
        tables["wide"][1][rowid] = [some_value(rng, usable // 32) for _ in range(32)]
    for rowid in range(5, 400 if usable < 40_000 else 60, 5):
        tables["z_9"][1][rowid] = [some_value(rng, min(usable, 1000))]
    return tables


def make(path, rng, size, reserved, more):
    """A database of these tables that sqlite3 makes, with free pages, and so many plain tables more."""
    tables = plain_tables(rng, size - reserved)
    lines = [f"PRAGMA page_size={size};"] + ([f".filectrl reserve_bytes {reserved}"] if reserved else [])
    lines += [f"CREATE TABLE {name}({','.join(columns)});" for name, (columns, _) in tables.items()]
    lines += [OTHERS, "BEGIN;"]
    for name, (_, rows) in tables.items():
        for rowid, values in rows.items():
            columns = ",".join(["rowid"] + tables[name][0])
            lines.append(f"INSERT INTO {name}({columns}) VALUES({','.join(map(literal, [rowid] + values))});")
    for at in range(more):
        tables[f"m{at}"] = (["x", "y"], {})
        lines.append(f"CREATE TABLE m{at}(x,y);")
    gone = [rowid for rowid in tables["t"][1] if rowid % 4 == 1]
    lines += [f"DELETE FROM t WHERE rowid IN ({','.join(map(str, gone))});", "COMMIT;", "ALTER TABLE empty ADD COLUMN late;"]
    for rowid in gone:
        del tables["t"][1][rowid]
    # sqlite3 writes a blank behind the comma of a column that is added, which is a plain text still
    tables["empty"][0].append("late")
    subprocess.run(["sqlite3", path], input="\n".join(lines) + "\n", capture_output=True, text=True, check=True)
    return tables


def row_line(rowid, values):
    return " ".join(["row", str(rowid)] + list(map(spelled, values)))


def reads(tables):
    """Commands that read everything, each with the lines that are due."""
    for name, (_, rows) in tables.items():
        yield f"count {name}", [f"count {len(rows)}"]
        if name.startswith("m"):
            continue
        shown = [row_line(rowid, rows[rowid]) for rowid in sorted(rows)]
        yield f"scan {name} -9223372036854775808 9223372036854775807", shown + [f"end {len(rows)}"]
        some = [rowid for rowid in sorted(rows) if -10 <= rowid <= 40]
        yield f"scan {name} -10 40", [row_line(rowid, rows[rowid]) for rowid in some] + [f"end {len(some)}"]
        yield f"scan {name} 40 -10", ["end 0"]
        for rowid in [-(2**63), -1, 0, 5, 2**63 - 1]:
            yield f"get {name} {rowid}", [row_line(rowid, rows[rowid]) if rowid in rows else "none"]
    for name in ["indexed", "watched", "typed", "numbered", "mixed", "without"]:
        yield f"get {name} 1", ["error foreign"]
    for name in ["seen", "by_a", "watch", "nothing"]:
        yield f"count {name}", ["error no-table"]


def tables_line(tables):
    """The lines of a list of all tables."""
    lines = {name: " ".join(["table", name] + columns) for name, (columns, _) in tables.items()}
    lines |= {name: f"foreign {name}" for name in ["indexed", "watched", "typed", "numbered", "Mixed", "without", "sqlite_sequence"]}
    lines["spaced name"] = "foreign spaced%20name"
    return [lines[name] for name in sorted(lines)] + [f"end {len(lines)}"]


def changes(rng, usable, tables):
    """Commands that change tables, each with the line that is due; the tables change with them."""
    for name in ["indexed", "watched", "mixed", "without", "numbered"]:
        yield f"put {name} 1 i:1", ["error foreign"]
        yield f"drop {name}", ["error foreign"]
    for name in ["seen", "by_a", "nothing"]:
        yield f"drop {name}", ["error no-table"]
    for name in ["t", "indexed", "mixed", "seen", "by_a", "watch", "without"]:
        yield f"create {name} a", ["error exists"]
    yield "put t 1 i:1", ["error columns"]
    yield "drop z_9", ["ok"]
    del tables["z_9"]
    yield from makes(tables, "z_9", ["one", "two"])
    yield from makes(tables, "fresh", [f"column_{at}" for at in range(32)])
    yield "tables", tables_line(tables)
    yield from rows_changed(rng, usable, tables, ["t", "empty", "z_9"])
    yield "drop wide", ["ok"]
    del tables["wide"]
    for at in range(12):
        yield from makes(tables, f"later_{at}", ["a"])
    yield "tables", tables_line(tables)


def makes(tables, name, columns):
    """A table made."""
    yield " ".join(["create", name] + columns), ["ok"]
    tables[name] = (columns, {})


def rows_changed(rng, usable, tables, names):
    """Rows put into these tables and taken out of them."""
    rows = 120 if usable < 4000 else 40 if usable < 40_000 else 8
    for at in range(rows):
        name = rng.choice(names)
        columns, there = tables[name]
        rowid = rng.choice([rng.randrange(-300, 600), 2**63 - 1, -(2**63)] + list(there)[:20])
        if rng.randrange(3) == 0:
            yield f"del {name} {rowid}", ["ok" if there.pop(rowid, None) is not None else "none"]
            continue
        values = [some_value(rng, min(usable, 3000), written=True) for _ in columns]
        yield " ".join(["put", name, str(rowid)] + list(map(spelled, values))), ["replaced" if rowid in there else "new"]
        there[rowid] = values


def begins(rng, usable, tables):
    """The same in a database of no pages."""
    yield "tables", ["end 0"]
    yield "drop t", ["error no-table"]
    yield from makes(tables, "t", ["a", "b"])
    yield "create t x", ["error exists"]
    yield from makes(tables, "u", [f"column_{at}" for at in range(32)])
    yield "drop u", ["ok"]
    del tables["u"]
    yield from makes(tables, "v", ["a"])
    yield from rows_changed(rng, usable, tables, ["t", "v"])
    yield "tables", [" ".join(["table", name] + tables[name][0]) for name in sorted(tables)] + [f"end {len(tables)}"]
    for name, (_, rows) in tables.items():
        yield f"count {name}", [f"count {len(rows)}"]


def bytes_of(line):
    """The bytes of a page as the program prints it."""
    page = b""
    for at, piece in enumerate(line.replace("]", "[").split("[")):
        if at % 2 == 0:
            page += bytes.fromhex(piece)
        else:
            byte, count = piece.split("*")
            page += bytes([int(byte, 16)]) * int(count)
    return page


UNHARMED = """
SELECT * FROM indexed; SELECT * FROM watched; SELECT * FROM typed; SELECT * FROM numbered; SELECT * FROM Mixed;
SELECT * FROM "spaced name"; SELECT * FROM without; SELECT * FROM seen; SELECT b FROM indexed INDEXED BY by_a WHERE a = 2;
SELECT * FROM sqlite_sequence; SELECT type, name, tbl_name, sql FROM sqlite_master
WHERE tbl_name IN ('indexed', 'watched', 'typed', 'numbered', 'Mixed', 'spaced name', 'without', 'seen') ORDER BY name;
"""


def shown_by_sqlite(value):
    """A value as its type and the hexadecimal digits of its text."""
    kind = {type(None): "null", int: "integer", float: "real", str: "text", bytes: "blob"}[type(value)]
    text = b"" if value is None else value if isinstance(value, bytes) else (value if isinstance(value, str) else repr(value)).encode()
    return f"{kind}:{text.hex().upper()}"


def check_left(path, before, tables, data):
    """sqlite3 finds nothing wrong in the pages that are left, and prints the rows that are due."""
    # a pager would raise the counter and write the size
    first = bytearray(data)
    counter = struct.unpack_from(">I", first, 24)[0] + 1
    for place, number in [(24, counter), (28, len(data) // before[1]), (92, counter)]:
        struct.pack_into(">I", first, place, number)
    with open(path, "wb") as file:
        file.write(first)
    if (said := sqlite(path, "PRAGMA integrity_check;")) != "ok\n":
        raise SystemExit(f"{path}: {said}")
    if before[0] is not None and sqlite(path, UNHARMED) != before[0]:
        raise SystemExit(f"{path}: a table that is not plain, an index, a trigger or a view is another")
    for name, (columns, rows) in tables.items():
        cells = " || ' ' || ".join(f"typeof({column}) || ':' || hex(CAST({column} AS BLOB))" for column in columns)
        printed = sqlite(path, f"SELECT rowid || ' ' || {cells} FROM {name} ORDER BY rowid;").splitlines()
        due = [" ".join([str(rowid)] + list(map(shown_by_sqlite, rows[rowid]))) for rowid in sorted(rows)]
        if printed != due:
            raise SystemExit(f"{path}: {name}: {[pair for pair in zip(printed, due) if pair[0] != pair[1]][:1]}")


def compare(made, folder, rng, size, reserved, more):
    """A database that sqlite3 made, read and changed."""
    path = os.path.join(folder, f"made_{size}_{reserved}_{more}.db")
    tables = make(path, rng, size, reserved, more)
    with open(path, "rb") as file:
        data = file.read()
    # each step of a scan goes over the schema anew, so a large one is asked for counts and single rows alone
    asked = [pair for pair in reads(tables) if not more or not pair[0].startswith("scan")]
    if not more:
        asked += list(changes(rng, size - reserved, tables))
        asked += list(reads(tables))
    run(made, path, size, reserved, data, asked, tables, sqlite(path, UNHARMED))


def compare_new(made, folder, rng, size, reserved):
    """One that is begun here."""
    tables = {}
    asked = list(begins(rng, size - reserved, tables))
    run(made, os.path.join(folder, f"begun_{size}_{reserved}.db"), size, reserved, b"", asked, tables, None)


def run(made, path, size, reserved, data, asked, tables, others):
    """Each command is answered by the lines that are due, and sqlite3 reads what is left."""
    text = "\n".join(line for line, _ in asked) + "\n"
    given = struct.pack(">III", size, reserved, len(data)) + data + text.encode()
    done = subprocess.run(["rt", "try", "--steps", "1", "--seconds", "900"], cwd=made, input=given, capture_output=True)
    printed = done.stdout.decode().splitlines()
    due = [line for _, lines in asked for line in lines]
    for at, line in enumerate(due):
        if at >= len(printed) or printed[at] != line:
            raise SystemExit(f"{size} {reserved}: line {at}: {printed[at:at + 1]} where {line[:200]!r} is due; {done.stderr.decode()[-800:]}")
    left = b"".join(map(bytes_of, printed[len(due):]))
    if len(left) % size != 0 or len(left) < len(data):
        raise SystemExit(f"{size} {reserved}: {len(left)} bytes of pages are left")
    check_left(path + ".left", (others, size), tables, left)
    print(f"{size} bytes a page, {reserved} reserved, {len(tables)} plain tables: {len(asked)} commands, {len(due)} lines agree, {len(left) // size} pages left", flush=True)


def main():
    if not shutil.which("sqlite3"):
        print("no sqlite3 here: nothing was compared")
        return
    rng = random.Random(1)
    with tempfile.TemporaryDirectory() as folder:
        made = program(folder, "tables_by_name", ["table_store", "shell_lang", "page_pool"], PROGRAM)
        for size, reserved in SPACES:
            compare_new(made, folder, rng, size, reserved)
            compare(made, folder, rng, size, reserved, 0)
        # a schema of hundreds of rows
        compare(made, folder, rng, 1024, 0, 300)


if __name__ == "__main__":
    sys.exit(main())
