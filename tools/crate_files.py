"""The crates of crates.txt below a program, their files, a checksum of them and their commit, for the tools that build a program."""
import hashlib
import os
import re
import subprocess
from pathlib import Path

TOP = Path(__file__).resolve().parent.parent
# The crate whose program prints its commit, and the line of its src/main.rt that has it.
COMMIT_CRATE, COMMIT_LINE = "workbench_main", 'const COMMIT: &str = "%s";'


def crates_below(name):
    """The lines of crates.txt of a crate and of all below it, by their names, in the order of that file; none if it has no such crate."""
    lines = {}
    for line in (TOP / "crates.txt").read_text().splitlines():
        if re.match(r"\w", line):
            lines[line.partition(":")[0].split()[0]] = line
    wanted, left = set(), [name]
    while left:
        crate = left.pop()
        if crate in lines and crate not in wanted:
            wanted.add(crate)
            left += lines[crate].partition(":")[2].split()
    return {it: line for it, line in lines.items() if it in wanted}


def files_below(folder, without=()):
    """The files of a folder, outside folders of these names, in an order that stays."""
    found = []
    for at, folders, names in os.walk(folder):
        folders[:] = sorted(it for it in folders if it not in without)
        found += [Path(at) / it for it in sorted(names)]
    return found


def said_by_git(*words):
    """What git says of the repository, as lines; None if it fails, or is not there."""
    try:
        ran = subprocess.run(["git", *words], cwd=TOP, stdout=subprocess.PIPE, stderr=subprocess.DEVNULL, text=True)
    except OSError:
        return None
    return None if ran.returncode else ran.stdout.splitlines()


def commit_of(lines):
    """The commit of the sources of a program with these lines of crates.txt, with `-changed` behind it if a file differs from it; `unknown`
    if git does not tell. None if the program prints no commit."""
    if COMMIT_CRATE not in lines:
        return None
    # (the prefix is empty if the repository begins at TOP)
    head = said_by_git("rev-parse", "--show-prefix", "--short", "HEAD")
    changed = said_by_git("status", "--porcelain", "--", "crates.txt", "HANDLES", *[f"crates/{it}" for it in lines])
    if changed is None or head is None or len(head) != 2 or head[0]:
        return "unknown"
    return head[1] + ("-changed" if changed else "")


def put_commit(folder, commit):
    """Puts a commit into src/main.rt of a copy of the crate that prints it."""
    file = folder / "src/main.rt"
    before, line, after = file.read_text().partition(COMMIT_LINE % "unknown")
    assert line, f"{file} has no line of the commit"
    file.write_text(before + COMMIT_LINE % commit + after)


def sum_of(lines, paths, commit):
    """A checksum of the kit's line, of these lines of crates.txt, of the names and contents of these files, and of the commit if there is one."""
    found = hashlib.sha256(subprocess.run(["rt", "version"], stdout=subprocess.PIPE).stdout)
    found.update((commit or "").encode())
    found.update("\n".join(lines.values()).encode())
    for path in paths:
        found.update(f"{path.relative_to(TOP)}\0{path.stat().st_size}\0".encode())
        found.update(path.read_bytes())
    return found.hexdigest()
