"""docs/FUNCTIONS.md: the public functions with the definitions that their contracts cite, and the must-fail edits. Read from
the sources, so that it needs no proved crates; tests/interface/uniqueness holds the list against the toolchain's own."""

import collections
import re

from declared import ROOT, crates, library_crates, sources_of, static_libraries

Function = collections.namedtuple("Function", "crate owner name exported cited memory")

# A path to definitions: of a crate, of what the toolchain makes of its types (specs.declared), or of the toolchain's own.
IMPORT = re.compile(r"ghost use Rattle\.(\w+)\.specs\.[\w.]+\.\{([^}]*)\}")

HEAD = """# Functions and edits

Written by `tests/documents --write`; the gate compares. {functions} public functions, {exported} of them C functions;
{edits} must-fail edits.

No function has a `requires`. A contract is an equation: the result, and what the lent memory named here holds after the call,
is what the cited definition gives for the inputs and the memory before. Where a call answers `Result<(), Refusal>` it has two:
of its number and what it leaves, and that the answer says no more. So a contract allows one result and one content, of a part
that is handed back its address too (T-52 of [THEOREMS.md](THEOREMS.md)).
`settings.valid` is `valid` in crates/settings/specs; without a name before it a definition is of the function's own crate. Of
each C function giamuvich has one of the same name and contract, which is not listed again.
"""

# A call's contract: what it answers as a number and leaves, and that its answer says no more than the number.
ANSWERED = re.compile(r"\((called \(number_of result\) .*)\) × \(result ≡ answer_by \(number_of result\)\)")

EDITS = """
## Must-fail edits

Each edit makes a wrong version of one file, which the prover must refuse (DECISIONS.md K-4). One in specs or proofs (.antt) changes
what a theorem or a contract says, one in src (.rt) what the code does.

| Edit | Of | What is true, or what the wrong version does |
|---|---|---|
"""


def imports_of(text):
    """Of each name that a source file takes from a crate's definitions, or from the toolchain's, which is std: the crate."""
    found = {}
    for crate, names in IMPORT.findall(text):
        found.update({name.split(" as ")[-1].strip(): crate for name in names.split(",")})
    return found


def call_of(formula):
    """Of a call's contract, the equation of its number and what it leaves; of another, the whole."""
    call = ANSWERED.fullmatch(formula)
    return call.group(1) if call else formula


def cited_in(formula, text):
    """The definitions that the equations of a contract cite; that a call's answer says no more than its number cites none."""
    return list(dict.fromkeys(name for equation in call_of(formula).split(" × ") for name in cited_by(equation, text)))


def cited_by(equation, text):
    """The definitions on the right side of an equation, as crate.name; the toolchain's own where there is no other."""
    origins = imports_of(text)
    # `x.now` is a part of x, and cites nothing
    names = list(dict.fromkeys(re.findall(r"(?<![\w.])[A-Za-z][\w'-]*", equation.partition("≡")[2])))
    cited = [f"{origins[name]}.{name}" for name in names if origins.get(name, "std") != "std"]
    return cited or [name for name in names if name in origins]


def heads_of(text):
    """(type or '', name, text from the parameters to the contract) of each public function of a source file."""
    owner, found = "", []
    pattern = r'^(?:impl (\w+)|(\}))|^ *pub (?:extern "C" )?fn (\w+)(.*?)\n *\{\n'
    for opened, closed, name, head in re.findall(pattern, text, re.M | re.S):
        owner = opened or ("" if closed else owner)
        if name:
            found.append((owner, name, head))
    return found


def formula_of(crate, name, head):
    """What a contract ensures, in its one clause; it asks nothing."""
    found = re.findall(r"\bensures(?: \w+)? \{ (.*) \}$", head, re.M)
    one = len(found) == head.count("ensures") == 1
    assert one and "requires" not in head, f"crates/{crate}: {name} has no contract of the form that is read here"
    return found[0]


def functions_in(crate, text):
    found = []
    for owner, name, head in heads_of(text):
        formula = formula_of(crate, name, head)
        memory = list(dict.fromkeys(re.findall(r"(\w+)\.new\b", formula)))
        exported = f'#[unsafe(no_mangle)]\npub extern "C" fn {name}(' in text
        found.append(Function(crate, owner, name, exported, cited_in(formula, text), memory))
    return found


def public_functions():
    """The public functions of the library crates, in the order of crates.txt, and then the exports of the static library."""
    found = []
    for crate in library_crates() + static_libraries():
        for text in sources_of(crate):
            found += functions_in(crate, text)
    return found


def row(function):
    path = [function.name] if function.exported else [function.owner, function.name]
    own = "" if function.exported else f"{function.crate}."
    cited = ", ".join(f"`{name.removeprefix(own)}`" for name in function.cited) or "its arguments"
    memory = "".join(f" {name}," for name in function.memory).rstrip(",")
    return f"| `{'::'.join(part for part in path if part)}` | {cited} |{memory} |"


def rows_by_crate(functions):
    """Each row with its crate before it, which is said once."""
    crates = [function.crate for function in functions]
    firsts = [crate if crate not in crates[:index] else "" for index, crate in enumerate(crates)]
    return [f"| {crate} {row(function)}".replace("|  |", "| |", 1) for crate, function in zip(firsts, functions)]


def edit_rows():
    rows = []
    for crate, _ in crates():
        for file in sorted((ROOT / "crates" / crate / "must-fail").glob("*.edit")):
            lines = file.read_text().splitlines()
            said = " ".join(line.lstrip("# ") for line in lines if line.startswith("#"))
            changed = ", ".join(line.partition(": ")[2].rpartition(".")[0] for line in lines if line.startswith("file: "))
            rows.append(f"| {crate}/{file.stem} | {changed} | {said} |")
    return rows


def page():
    listed, edits = public_functions(), edit_rows()
    exports = [function for function in listed if function.exported]
    names = {function.name for function in exports}
    others = [function for function in listed if not function.exported and function.name not in names]
    columns = "| Function | Definition that it cites | Lent memory |\n|---|---|---|\n"
    of_crates = "| Crate " + columns.replace("\n|", "\n|---|", 1)
    return (
        HEAD.format(functions=len(exports) + len(others), exported=len(exports), edits=len(edits))
        + f"\n## The C functions\n\n{columns}" + "\n".join(row(function) for function in exports) + "\n"
        + f"\n## The others\n\n{of_crates}" + "\n".join(rows_by_crate(others)) + "\n"
        + EDITS + "\n".join(edits) + "\n"
    )
