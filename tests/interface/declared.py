"""The public functions of the library crates, as the toolchain's own interface files list them. They lie in crates/NAME/out/rlib:
`rt ci` leaves them there, as does `rt check` of a crate above, or `rt lib` in the crate itself."""

import pathlib
import re

ROOT = pathlib.Path(__file__).resolve().parents[2]


def crates():
    """(name, whether it is a static library) of each crate of crates.txt, in its order."""
    lines = (ROOT / "crates.txt").read_text().splitlines()
    heads = [line.split("#")[0].partition(":")[0].split() for line in lines]
    return [(head[0], "staticlib" in head[1:]) for head in heads if head]


def library_crates():
    """The crates that others can use: no programs, and no static libraries, which only C calls."""
    return [name for name, static in crates() if not static and not (ROOT / "crates" / name / "src" / "main.rt").exists()]


def static_libraries():
    return [name for name, static in crates() if static]


def sources_of(crate):
    return [file.read_text() for file in sorted((ROOT / "crates" / crate / "src").glob("*.rt"))]


def interface_of(crate):
    """The text of each interface file. A crate of theorems alone declares no function; it may have none."""
    folder = ROOT / "crates" / crate / "out" / "rlib" / f"{crate}.rlib" / "interface" / "lang" / "src"
    files = sorted(folder.rglob("*.rt"))
    declares = any(re.search(r"^ *pub (?:extern \"C\" )?fn ", text, re.M) for text in sources_of(crate))
    assert files or not declares, f"{folder} is not there: run rt ci, or rt lib in crates/{crate}"
    return [file.read_text() for file in files]


def lines_of(crate):
    """(type or '', line) of each line of the interface."""
    for text in interface_of(crate):
        owner = ""
        for line in text.splitlines():
            opened = re.match(r"impl (?:< '\w+ > )?(\w+)", line)
            if opened:
                owner = opened.group(1)
            elif line.strip() == "}":
                owner = ""
            yield owner, line


def functions_of(crate):
    """(type or '', name) of each public function."""
    declared = [(owner, re.match(r'(?:# \[ .*? \] )*pub (?:extern "C" )?fn (\w+) ', line)) for owner, line in lines_of(crate)]
    return [(owner, found.group(1)) for owner, found in declared if found]


def constants_of(crate):
    """The public constants of a crate, as NAME, and those of its types, as TYPE::NAME."""
    found = {}
    for owner, line in lines_of(crate):
        declared = re.match(r"(?:# \[ .*? \] )*pub const (\w+) : \w+ = (0x[0-9a-f]+|\d+) ;", line)
        if declared:
            found[f"{owner}::{declared.group(1)}" if owner else declared.group(1)] = int(declared.group(2), 0)
    return found
