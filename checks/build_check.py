#!/usr/bin/env python3
"""Builds a small program by tools/prove.py in a folder of its own, as a clone that was just made.

    build_check.py

The program uses one library, takes words and input, and ends with a status that isn't 0, also without them. It is proved
and built all the same; a second build asks for no proof; a program that is lost or spoiled, and a source that changes,
are built again; and one that isn't proved is no program. Then other kits are stood for by an `rt` that proves nothing:
what counts is that it says so and that it links, and not the status. It needs `rt` and Python 3.8 or later, and takes
half a minute. The last line counts what was looked at as 'N passed, M failed'; the status is 0 where none failed.
"""
import os
import pathlib
import shutil
import subprocess
import sys
import tempfile

TOOLS = pathlib.Path(__file__).resolve().parent.parent / "tools"

LIBRARY = """\
//! How many lines a text has.
#![tactic(auto)]

/// How many ends of lines the text has.
pub fn lines_in(text: &[u8]) -> usize {
    text.iter().filter(|byte| **byte == b'\\n').count()
}
"""

PROGRAM = """\
//! Writes how many words it is called by, and how many lines its input has.
#![tactic(auto)]

use std::env;
use std::io;
use std::process::ExitCode;
use tiny_text::lines_in;

/// Writes both numbers, and ends with 3; with 7 where it can't write them.
fn main(rt: HostRuntime) -> ExitCode {
    match written(&rt) {
        Ok(()) => ExitCode::from(3),
        Err(_) => ExitCode::from(7),
    }
}

/// Writes both numbers.
fn written(rt: &HostRuntime) -> io::Result<()> {
    let words: Vec<String> = env::args(rt)?.collect(rt.alloc())?;
    let input = io::read_to_string(rt.alloc(), rt.stdin())?;
    let words = words.len();
    let lines = lines_in(input.as_bytes());
    println!(rt; "{words} words, {lines} lines")?;
    Ok(())
}
"""

FILES = {
    "crates.txt": "tiny_text:\ntiny_program: tiny_text\n",
    "crates/tiny_text/src/lib.rt": LIBRARY,
    "crates/tiny_program/src/main.rt": PROGRAM,
    "crates/tiny_program/args": "one\ntwo\n",
    "crates/tiny_program/stdin": "a line\nand another\n",
    "crates/tiny_program/stdout": "3 words, 2 lines\n",
    "crates/tiny_program/status": "3\n",
}
SOURCE = "crates/tiny_program/src/main.rt"
BUILT = "crates/tiny_program/out/tiny_program"
WANTED = (3, b"3 words, 2 lines\n")

# The `rt` of a kit, which notes each call and then passes it on.
NOTING = """\
#!/bin/sh
echo "$1" >> '{calls}'
exec '{rt}' "$@"
"""

# An `rt` that proves nothing: what its `run` does is put in.
STAND_IN = """\
#!/bin/sh
case "$1" in
version) echo 'a kit that is none' ;;
lib) mkdir -p out/rlib/tiny_text.rlib && echo 'logic=proved functions=1' ;;
run) mkdir -p out; {run} ;;
esac
"""
LINKS = "echo 'logic=proved functions=4'; echo linked > out/tiny_program; "
# What `run` of such a kit does, and whether the program is then proved and built.
KITS = [
    ("a kit that runs the program, which answers 3", LINKS + "exit 3", True),
    ("a kit that runs no program", LINKS + "exit 0", True),
    ("a kit that says proved and links nothing", "echo 'logic=proved functions=4'; exit 0", False),
    ("a kit that links and doesn't say proved", "echo linked > out/tiny_program; exit 0", False),
    ("a kit that proves the library alone", "echo 'logic=proved functions=1'; echo 'logic=refused'; exit 1", False),
    ("a kit that stops", "exit 2", False),
]


class Repository:
    """A folder with the small program, and an `rt` before all others."""

    def __init__(self, folder, rt):
        self.top, self.bin = folder / "repository", folder / "bin"
        for name, text in FILES.items():
            self.write(name, text)
        shutil.copytree(TOOLS, self.top / "tools", ignore=shutil.ignore_patterns("__pycache__"))
        self.bin.mkdir(parents=True)
        (self.bin / "rt").write_text(rt)
        (self.bin / "rt").chmod(0o755)

    def write(self, name, text):
        (self.top / name).parent.mkdir(parents=True, exist_ok=True)
        (self.top / name).write_text(text)

    def build(self):
        """The status of tools/prove.py, and what it printed."""
        way = {**os.environ, "PATH": "{}:{}".format(self.bin, os.environ["PATH"])}
        ran = subprocess.run([sys.executable, "tools/prove.py", "--jobs", "1", "tiny_program"], cwd=str(self.top), env=way,
                             stdout=subprocess.PIPE, stderr=subprocess.STDOUT, check=False)
        return ran.returncode, ran.stdout.decode(errors="replace")

    def run(self):
        """The status of the program with its words and its input, and what it wrote; None where there is none."""
        program = self.top / BUILT
        if not program.exists():
            return None
        words = FILES["crates/tiny_program/args"].splitlines()
        ran = subprocess.run([str(program), *words], input=FILES["crates/tiny_program/stdin"].encode(),
                             stdout=subprocess.PIPE, check=False)
        return ran.returncode, ran.stdout


def builds(folder):
    """Each build with the `rt` that is there: what it is, whether all was as wanted, and what was seen."""
    calls = folder / "calls"
    repository = Repository(folder, NOTING.format(calls=calls, rt=shutil.which("rt")))

    def seen():
        calls.write_text("")
        status, said = repository.build()
        return status, repository.run(), sorted(set(calls.read_text().split()) - {"version"}), said

    def looked_at(what, status, ran, called):
        got = seen()
        return what, got[:3] == (status, ran, called), got

    yield looked_at("a clone that was just made", 0, WANTED, ["lib", "run"])
    yield looked_at("nothing has changed", 0, WANTED, [])
    (repository.top / BUILT).unlink()
    yield looked_at("the program is lost", 0, WANTED, ["run"])
    (repository.top / BUILT).write_bytes(b"spoiled")
    yield looked_at("the program is spoiled", 0, WANTED, ["run"])
    repository.write(SOURCE, PROGRAM.replace("words.len()", "words.len() - 1"))
    yield looked_at("a source that isn't proved", 1, None, ["run"])
    repository.write(SOURCE, PROGRAM.replace(" words, ", " texts, "))
    yield looked_at("a source that changed", 0, (3, b"3 texts, 2 lines\n"), ["run"])


def kits(folder):
    """Each kit that is stood for: what it is, whether the build ended as wanted, and what was seen. An older program is there."""
    for number, (what, run, is_built) in enumerate(KITS):
        repository = Repository(folder / str(number), STAND_IN.format(run=run))
        repository.write(BUILT, "an older program")
        status, said = repository.build()
        yield what, (status == 0) == is_built, (status, said)


def main():
    if shutil.which("rt") is None:
        sys.exit("there is no rt on the PATH")
    passed = failed = 0
    with tempfile.TemporaryDirectory() as name:
        folder = pathlib.Path(name)
        for what, is_well, got in [*builds(folder), *kits(folder / "kits")]:
            passed, failed = passed + is_well, failed + (not is_well)
            if not is_well:
                print("{}: {}".format(what, got))
    print("{} passed, {} failed".format(passed, failed))
    sys.exit(0 if failed == 0 else 1)


if __name__ == "__main__":
    main()
