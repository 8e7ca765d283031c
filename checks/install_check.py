#!/usr/bin/env python3
"""Installs the programs in a new folder, from the repository and from the archive, and runs them there.

    install_check.py DOCKET CLERK_OFFICE

`make install` with another PREFIX must put both programs, a man page for each command and the completions there; bash must read
its completions and complete by them, and so must zsh and fish where they are there. tools/dist.py must make the same archive twice.
Unpacked elsewhere its checksums must hold, its record of proof must name the commit, the kit and each crate, and its install.sh
must install the same files. The programs must need no other library than the C library, and a docket is made with them where
neither the kit nor anything of the repository is on the PATH. It needs git, tar and Python 3.8 or later; the status is 0 where all
of that is so.
"""
import hashlib
import os
import pathlib
import shutil
import subprocess
import sys
import tarfile
import tempfile

from lib.programs import TOP, programs_of, run

sys.path.insert(0, str(TOP / "tools"))

from crates import needed_by, uses_of_all  # noqa: E402

BARE = {"PATH": "/usr/bin:/bin", "HOME": "/nonexistent", "LC_ALL": "C.UTF-8"}
# What a shell has to offer: how it is called, what it reads, and a beginning with the word that must be among those offered.
BASH = 'source "$0"; COMP_WORDS=(docket court wr); COMP_CWORD=2; _docket; echo "${COMPREPLY[@]}"'
FISH = "source $argv[1]; complete -C 'docket court wr'"
SHELLS = [("bash", ["-c", BASH], "share/bash-completion/completions/docket"), ("fish", ["-c", FISH], "share/fish/vendor_completions.d/docket.fish"),
          ("zsh", ["-n"], "share/zsh/site-functions/_docket")]


def files_in(folder):
    """Each file below a folder by its place, with its bytes and whether it can be run."""
    return {str(path.relative_to(folder)): (path.read_bytes(), os.access(path, os.X_OK)) for path in sorted(folder.rglob("*")) if path.is_file()}


def check_installed(folder, programs):
    """What is installed, and a docket that is made with it."""
    files = files_in(folder)
    wanted = {"share/" + place: (data, False) for place, (data, _) in files_in(TOP / "share").items()}
    wanted.update({"bin/" + program.name: (program.read_bytes(), True) for program in programs})
    assert files == wanted, sorted(files.keys() ^ wanted.keys())
    for shell, words, place in SHELLS:
        if shutil.which(shell):
            ended = run([shell, *words, folder / place], env=dict(os.environ, HOME=str(folder)))
            assert ended.status == 0 and not ended.errors and (shell == "zsh" or b"write" in ended.output), (shell, ended)
    docket, cases = folder / "bin" / "docket", folder / "cases"
    assert run([docket, "init", cases, "--court", TOP / "examples" / "district.toml"], env=BARE).status == 0
    entered = run([docket, "enter", cases], b"1,open,1,2025-08-04\n1,start,1,59e,2025-08-04,,,\n", env=BARE)
    assert entered == (0, b"1 1 opened\n2 1 deadline 1 last 2025-09-02\n", b""), entered
    assert b"Tue 2025-09-02" in run([docket, "due", cases], env=BARE).output
    shutil.rmtree(cases)


def check_libraries(program):
    """The program needs the C library alone."""
    told = subprocess.run(["ldd", str(program)], stdout=subprocess.PIPE, check=True).stdout.decode().split()
    assert {word for word in told if word.startswith("lib")} <= {"libc.so.6"}, told


def check_archive(folder, programs):
    """The archive, unpacked and installed."""
    paths = []
    for turn in ("first", "second"):
        made = run([sys.executable, TOP / "tools" / "dist.py", "--out", folder / turn])
        assert made.status == 0, made
        paths.append(next((folder / turn).glob("*.tar.gz")))
    data = paths[0].read_bytes()
    assert data == paths[1].read_bytes(), "two archives of the same differ"
    assert paths[0].with_name(paths[0].name + ".sha256").read_text() == "{}  {}\n".format(hashlib.sha256(data).hexdigest(), paths[0].name)
    with tarfile.open(paths[0]) as archive:
        archive.extractall(folder / "unpacked")
    top, = (folder / "unpacked").iterdir()
    summed = subprocess.run(["sha256sum", "--check", "--quiet", "SHA256SUMS"], cwd=str(top), check=False)
    listed = [line.split("  ")[1] for line in (top / "SHA256SUMS").read_text().splitlines()]
    assert summed.returncode == 0 and set(listed) == files_in(top).keys() - {"SHA256SUMS"}
    proof = (top / "PROOF.txt").read_text()
    commit = subprocess.run(["git", "rev-parse", "HEAD"], cwd=str(TOP), stdout=subprocess.PIPE, check=True).stdout.decode().strip()
    assert commit in proof and "proved by " in proof and all("\n" + crate + " " in proof for crate in needed_by(["docket", "clerk_office"], uses_of_all()))
    installed = run(["sh", top / "install.sh", folder / "from the archive"], env=BARE)
    assert installed.status == 0, installed
    check_installed(folder / "from the archive", programs)


def main(words):
    programs = programs_of(words)
    for program in programs:
        check_libraries(program)
    with tempfile.TemporaryDirectory() as name:
        folder = pathlib.Path(name)
        made = run(["make", "-s", "install", "PREFIX={}".format(folder / "installed")], cwd=str(TOP))
        assert made.status == 0, made
        check_installed(folder / "installed", programs)
        check_archive(folder, programs)
    print("both programs are installed from the repository and from an archive, and run there")


if __name__ == "__main__":
    if len(sys.argv) != 3:
        sys.exit("usage: install_check.py DOCKET CLERK_OFFICE")
    main(sys.argv[1:])
