"""What the scripts here share: asking sqlite3, reading a varint, and crates that stand over copies of the repository's."""
import os
import shutil
import subprocess

TOP = os.path.dirname(os.path.dirname(os.path.abspath(__file__)))


def sqlite(path, sql):
    return subprocess.run(["sqlite3", path], input=sql, capture_output=True, text=True, check=True).stdout


def varint(data, at):
    value = 0
    for i in range(8):
        value = value << 7 | data[at + i] & 0x7F
        if data[at + i] < 0x80:
            return value, at + i + 1
    return value << 8 | data[at + 8], at + 9


def copy_crates(folder, crates):
    """Copies of these crates, and of those that they stand on, in a folder of their own. Answers the names of all."""
    with open(os.path.join(TOP, "crates.txt")) as file:
        lines = {line.split(":")[0]: line for line in file if ":" in line and not line.startswith("#")}
    wanted = list(crates)
    for name in wanted:
        wanted += [low for low in lines[name].split(":")[1].split() if low in lines and low not in wanted]
    for name in wanted:
        here = os.path.join(TOP, "crates", name)
        shutil.copytree(here, os.path.join(folder, "crates", name), ignore=shutil.ignore_patterns("out"))
    shutil.copy(os.path.join(TOP, "HANDLES"), os.path.join(folder, "HANDLES"))
    with open(os.path.join(folder, "crates.txt"), "w") as file:
        file.writelines(lines[name] for name in wanted)
    return wanted


def copy_of(folder, crate, module):
    """A copy of a crate, over copies of those that it stands on, with a module of tests more.

    Answers the path of the copy. The module is that of src/NAME.rt, which the caller writes.
    """
    copy_crates(folder, [crate])
    copy = os.path.join(folder, "crates", crate)
    with open(os.path.join(copy, "src", "lib.rt"), "a") as file:
        file.write(f"\n#[cfg(test)]\nmod {module};\n")
    return copy


def program(folder, name, crates, source):
    """A program of this source, over copies of these crates and of those that they stand on. Answers its path."""
    below = copy_crates(folder, crates)
    with open(os.path.join(folder, "crates.txt"), "a") as file:
        file.write(f"{name}: {' '.join(below)}\n")
    made = os.path.join(folder, "crates", name)
    os.makedirs(os.path.join(made, "src"))
    with open(os.path.join(made, "src", "main.rt"), "w") as file:
        file.write(source)
    return made


def run(made, *command):
    """What a command prints in the folder of a crate."""
    done = subprocess.run(command, cwd=made, capture_output=True, text=True)
    if done.returncode != 0:
        raise SystemExit(f"{done.stdout[-2000:]}\n{done.stderr[-3000:]}\n{' '.join(command)} failed")
    return done.stdout
