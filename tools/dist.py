#!/usr/bin/env python3
"""Makes an archive of the proved programs, for a Linux without the kit.

    dist.py [--out FOLDER]

The programs must be proved and built by tools/prove.py from the sources as they are now; `make dist` does that first. The
archive, by default in out/, is called docket-VERSION-MACHINE-linux.tar.gz and has the programs, man pages and completions, the
documents and examples, install.sh, PROOF.txt and SHA256SUMS. PROOF.txt is the record of proof: the version, the commit, the kit,
and of each crate how many functions `rt` proved, with its verdict and a number that changes with each source. Beside the
archive stands its own checksum. Of the same commit and the same programs the archive is the same, byte by byte. It needs git and
Python 3.8 or later; the status is 0 where it is made.
"""
import argparse
import gzip
import hashlib
import io
import pathlib
import platform
import re
import subprocess
import sys
import tarfile

from crates import TOP, needed_by, uses_of_all
from helps import version_of
from prove import NOTES, VERDICTS, mark_of, noted, prints_of, program_of

PROGRAMS = ("docket", "clerk_office")
DOCUMENTS = ("README.md", "CHANGELOG.md", "docs", "examples", "share")
INSTALL = TOP / "tools" / "install.sh"
FUNCTIONS = re.compile(r" functions=(\d+)")


def said(*words):
    """What a command writes, without its last end of line."""
    return subprocess.run(words, cwd=str(TOP), stdout=subprocess.PIPE, check=True).stdout.decode().rstrip("\n")


def proof_of(version, commit, is_changed, prints):
    """The record of proof."""
    verdicts, lines, count, silent = noted(VERDICTS), [], 0, 0
    for crate in sorted(prints):
        found, verdict = verdicts.get(crate, ["", ""])
        verdict = verdict if found == prints[crate] else ""
        functions = FUNCTIONS.search(verdict)
        count, silent = count + int(functions[1] if functions else 0), silent + (not functions)
        lines.append("{:<24}{:>10}  {}  {}".format(crate, functions[1] if functions else "before", prints[crate][:16], verdict))
    head = ["docket {}, of commit {}{}".format(version, commit, ", with changes that are in no commit" if is_changed else ""),
            "proved by {}".format(said("rt", "version")),
            "{} functions of {} crates, each function proved to do what its contract says".format(count, len(prints))]
    if silent:
        head.append("{} crates were proved earlier, by the same kit and from the same sources, and aren't among these functions".format(silent))
    head += ["", "What the contracts say, and what they rest on: docs/code/PROMISES.md.",
             "Below: each crate, how many of its functions were proved, a number that changes with its sources and those below it, and what",
             "the kit said.", ""]
    return "\n".join(head + lines) + "\n"


def files_of(version, commit, is_changed, prints):
    """Each file of the archive by its place, with its bytes and whether it can be run."""
    files = {"bin/" + name: (program_of(name).read_bytes(), True) for name in PROGRAMS}
    files["install.sh"] = (INSTALL.read_bytes(), True)
    files["PROOF.txt"] = (proof_of(version, commit, is_changed, prints).encode(), False)
    for line in said("git", "ls-files", "--", *DOCUMENTS).splitlines():
        files[line] = ((TOP / line).read_bytes(), False)
    sums = "".join("{}  {}\n".format(hashlib.sha256(data).hexdigest(), place) for place, (data, _) in sorted(files.items()))
    files["SHA256SUMS"] = (sums.encode(), False)
    return files


def archive_of(folder, files, seconds):
    """The archive of these files in a folder, all of that time."""
    packed = io.BytesIO()
    with tarfile.open(fileobj=packed, mode="w", format=tarfile.GNU_FORMAT) as archive:
        for place, (data, can_run) in sorted(files.items()):
            entry = tarfile.TarInfo(folder + "/" + place)
            entry.size, entry.mtime, entry.mode = len(data), seconds, 0o755 if can_run else 0o644
            archive.addfile(entry, io.BytesIO(data))
    return gzip.compress(packed.getvalue(), mtime=seconds)


def main():
    reader = argparse.ArgumentParser(description="Makes an archive of the proved programs.")
    reader.add_argument("--out", type=pathlib.Path, default=TOP / "out", help="the folder for the archive")
    given = reader.parse_args()
    uses, notes = uses_of_all(), noted(NOTES)
    prints = prints_of(needed_by(PROGRAMS, uses), uses)
    stale = [crate for crate in PROGRAMS if notes.get(crate, "") != mark_of(crate, prints)]
    if stale:
        sys.exit("{} isn't proved and built from the sources as they are: make docket build".format(stale[0]))
    version, commit = version_of(program_of(PROGRAMS[0])), said("git", "rev-parse", "HEAD")
    is_changed = bool(said("git", "status", "--porcelain"))
    files = files_of(version, commit, is_changed, prints)
    name = "docket-{}-{}-linux".format(version, platform.machine())
    data = archive_of(name, files, int(said("git", "show", "-s", "--format=%ct", commit)))
    given.out.mkdir(parents=True, exist_ok=True)
    path = given.out / (name + ".tar.gz")
    path.write_bytes(data)
    (given.out / (name + ".tar.gz.sha256")).write_text("{}  {}\n".format(hashlib.sha256(data).hexdigest(), path.name))
    print("{}: {} files, {:,} bytes; the proof: {}".format(path, len(files), len(data), files["PROOF.txt"][0].decode().splitlines()[2]))


if __name__ == "__main__":
    main()
