"""What crates.txt says: the repository's crates, and which of them each uses."""
import pathlib

TOP = pathlib.Path(__file__).resolve().parent.parent


def uses_of_all():
    """Each crate of the repository, and which crates of the repository it uses."""
    named = {}
    for line in (TOP / "crates.txt").read_text().splitlines():
        head, colon, used = line.partition("#")[0].partition(":")
        if colon:
            named[head.split()[0]] = used.split()
    return {crate: [used for used in all_used if used in named] for crate, all_used in named.items()}


def needed_by(wanted, uses):
    """Those crates and all below them."""
    needed, left = set(), list(wanted)
    while left:
        crate = left.pop()
        if crate not in needed:
            needed.add(crate)
            left += uses[crate]
    return needed


def is_program(crate):
    return (TOP / "crates" / crate / "src" / "main.rt").exists()


def sources_of(crate):
    """The files of a crate that its proof reads."""
    folder = TOP / "crates" / crate
    return sorted(path for part in ("src", "specs", "proofs") for path in (folder / part).rglob("*") if path.is_file())
