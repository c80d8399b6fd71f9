#!/usr/bin/env python3
"""Names each law that a proof of another crate cites and the law's own crate does not list, and each module that is gone.

    tools/checks/cited_laws.py

A crate lists the laws that the crates above may cite in the part "Laws for the crates above" of its README. A law is
listed where its name stands there, whatever its module. A module that a README names has to be there. The status is 0 where each
law that is cited is listed and each module is there, else 1.
"""
import re
import sys
from pathlib import Path

CRATES = Path(__file__).resolve().parents[2] / "crates"
HEADING = "## Laws for the crates above"
CITATION = re.compile(r"^\s*(?:ghost )?use Rattle\.(\w+)\.proofs\.([\w.]+)\.\{([^}]*)\}", re.MULTILINE)
NAME = re.compile(r"[A-Za-z_][A-Za-z0-9_-]*")
MODULE = re.compile(r"`(proofs|specs)(?:::|\.)(\w+)")


def sources(crate):
    """The files of a crate that can cite a law."""
    for folder, pattern in (("proofs", "*.antt"), ("specs", "*.antt"), ("src", "*.rt")):
        yield from sorted((crate / folder).rglob(pattern))


def listed(crate):
    """The names in a crate's list of laws."""
    readme = crate / "README.md"
    text = readme.read_text(encoding="utf-8") if readme.exists() else ""
    return set(NAME.findall(text.partition(HEADING)[2]))


def cited():
    """The laws that another crate cites: the crate that has it, its module and its name."""
    laws = set()
    for crate in sorted(path for path in CRATES.iterdir() if path.is_dir()):
        for source in sources(crate):
            for owner, module, names in CITATION.findall(source.read_text(encoding="utf-8")):
                if owner != crate.name and (CRATES / owner).is_dir():
                    laws.update((owner, module, name.split(" as ")[0].strip()) for name in names.split(","))
    return sorted(laws)


def gone(crate):
    """The modules that a crate's README names and that are not there, each with its folder."""
    readme = crate / "README.md"
    named = MODULE.findall(readme.read_text(encoding="utf-8")) if readme.exists() else []
    return [(folder, name) for folder, name in dict.fromkeys(named)
            if not (crate / folder / f"{name}.antt").is_file() and not (crate / folder / name).is_dir()]


def main():
    lists = {crate.name: listed(crate) for crate in CRATES.iterdir() if crate.is_dir()}
    missing = [law for law in cited() if law[2] not in lists[law[0]]]
    for owner, module, name in missing:
        print(f"crates/{owner}/README.md does not list {module}.{name}, which a crate above cites")
    lost = [(crate.name, *module) for crate in sorted(CRATES.iterdir()) if crate.is_dir() for module in gone(crate)]
    for owner, folder, name in lost:
        print(f"crates/{owner}/README.md names {folder}::{name}, which is not there")
    return 1 if missing or lost else 0


if __name__ == "__main__":
    sys.exit(main())
