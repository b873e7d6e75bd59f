"""What the documents name: definitions, theorems, functions and tests. Each fault says the document, the name, and where else
the name stands, so that a rename is easily followed."""

import fnmatch
import re

from declared import ROOT

# Documents that name definitions as `crate.name` and functions as `crate::name`.
NAMING = ("THEOREMS", "SENTENCES", "FUNCTIONS", "FORMS", "LINK", "X328", "SPECS", "DECISIONS", "TRUSTED")
FILES = (".c", ".h", ".rs", ".rt", ".py", ".md", ".antt", ".txt", ".a")


def text_of(pattern):
    return "\n".join(file.read_text() for file in sorted(ROOT.glob(pattern)))


def document(name):
    return (ROOT / "docs" / f"{name}.md").read_text()


def defining(folder, name):
    """The files of crates/*/FOLDER that give this name its type. A theorem may stand, indented, under a parameter of several."""
    indent = "" if folder == "specs" else " *"
    start = rf"^{indent}(?:abbrev |unfoldable )?(?:pub )?(?:record |data )?{re.escape(name)}(?: [:({{]|$)"
    return [file for file in sorted(ROOT.glob(f"crates/*/{folder}/*.antt")) if re.search(start, file.read_text(), re.M)]


def elsewhere(files):
    return f"; it stands in {', '.join(str(file.relative_to(ROOT)) for file in files)}" if files else ""


def definition_faults():
    """Each `crate.name` is one definition of that crate."""
    for page in NAMING:
        for crate, name in sorted(set(re.findall(r"`([a-z_]+)\.([A-Za-z][\w'-]*)`", document(page)))):
            if f".{name}" in FILES:
                continue
            found = defining("specs", name)
            here = [file for file in found if file.parts[-3] == crate]
            if not here:
                yield f"docs/{page}.md: crates/{crate}/specs has no definition {name}{elsewhere(found)}"
            elif len(here) > 1:
                yield f"docs/{page}.md: {crate}.{name} is defined twice{elsewhere(here)}"


def function_faults(functions):
    """Each `crate::name` is a public function, type or constant of that crate, and each gmv_ name a C function."""
    exported = [function.name for function in functions if function.exported]
    for page in NAMING:
        text = document(page)
        for crate, name in sorted(set(re.findall(r"`([a-z_]+)::(?:\w+::)?(\w+)`", text))):
            sources = text_of(f"crates/{crate}/src/*.rt")
            if not re.search(rf'\bpub (?:extern "C" )?(?:fn|struct|enum|type|const) {name}\b', sources):
                others = "".join(f"; {function.crate} has it" for function in functions if function.name == name)
                yield f"docs/{page}.md: crates/{crate}/src has no public {name}{others}"
        for name in sorted(set(re.findall(r"`(gmv_[a-z_*]+)", text))):
            if not fnmatch.filter(exported, name):
                yield f"docs/{page}.md: {name} is no C function"


def theorem_rows():
    return re.findall(r"^\| (T-\d+) \| .* \| (.*) \|$", document("THEOREMS"), re.M)


def theorem_faults():
    """Each label once, and each name of a row stands in the file that the row names: crate/File, or crate/specs/File."""
    rows = theorem_rows()
    labels = [label for label, _ in rows]
    for label in sorted({*labels, *(f"T-{number}" for number in range(1, len(labels) + 1))}):
        if labels.count(label) != 1:
            yield f"docs/THEOREMS.md: {label} has {labels.count(label)} rows"
    for label, where in rows:
        files = re.findall(r"(?:^|; )(\w+)/(specs/)?(\w+) ((?:`[^`]+`(?:, )?)+)", where)
        if not files:
            yield f"docs/THEOREMS.md: {label} leads to no theorem"
        for crate, specs, file, names in files:
            path = f"crates/{crate}/{specs or 'proofs/'}{file}.antt"
            for name in re.findall(r"`([^`]+)`", names):
                found = [file for folder in ("proofs", "specs") for file in defining(folder, name)]
                if ROOT / path not in found:
                    yield f"docs/THEOREMS.md: {label}: {path} has no {name}{elsewhere(found)}"


def label_faults():
    """Each theorem that is cited anywhere has its row."""
    labels = {label for label, _ in theorem_rows()}
    files = [ROOT / "include/giamuvich.h", *ROOT.glob("*.md"), *ROOT.glob("docs/*.md"), *ROOT.glob("examples/**/*.md")]
    for file in files:
        for label in sorted(set(re.findall(r"(?<![\w-])T-\d+\b", file.read_text())) - labels):
            yield f"{file.relative_to(ROOT)}: docs/THEOREMS.md has no {label}"


# The forms that a cell of 'Run by' may have, and where the name must stand.
RUNS = (
    (r"`make (\w+)`", lambda name: re.search(rf"^{name}:", (ROOT / "Makefile").read_text(), re.M)),
    (r"(fuzz|operator)", lambda name: (ROOT / "tests" / name).exists()),
    (r"program (\w+)", lambda name: (ROOT / "crates" / name / "src/main.rt").exists()),
    (r'gate "([^"]+)"', lambda name: f'"{name}"' in (ROOT / "tests/gate").read_text()),
    (r"peers (\w+)", lambda name: (ROOT / f"tests/peers/{name}.py").exists()),
    (r"driver (\w+)", lambda name: (ROOT / f"tests/driver/{name}.py").exists() or f"def {name}(" in text_of("tests/driver/*.py")),
    (r"(edits): FUNCTIONS.md", lambda name: "## Must-fail edits" in document("FUNCTIONS")),
    (r"(\w+)", lambda name: f'("{name}", ' in text_of("tests/host/src/groups/mod.rs")),
)


def run_faults():
    """Each test that docs/SENTENCES.md names is there; a cell names at most one."""
    for cell in sorted(set(re.findall(r"^\| .* \|(?: (.*))? \|$", document("SENTENCES"), re.M)) - {"", "Run by"}):
        found = [(there, match.group(1)) for form, there in RUNS if (match := re.fullmatch(form, cell))]
        if not found or not found[0][0](found[0][1]):
            yield f"docs/SENTENCES.md: no test is run by '{cell}'"


def link_faults():
    """Each link from one file to another leads to one that is there."""
    for file in [*ROOT.glob("*.md"), *ROOT.glob("docs/*.md"), *ROOT.glob("examples/**/*.md")]:
        for target in sorted(set(re.findall(r"\]\((?!https?:|#)([^)#\s]+)", file.read_text()))):
            if not (file.parent / target).exists():
                yield f"{file.relative_to(ROOT)}: a link leads to {target}, which is not there"


def faults(functions):
    found = [*definition_faults(), *function_faults(functions), *theorem_faults(), *label_faults()]
    return found + [*run_faults(), *link_faults()]
