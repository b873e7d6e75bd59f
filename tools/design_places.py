"""Counts the places of docs/DESIGN-PASS.md: python3 tools/design_places.py [ROOT].

Reads crates/*/src/**/*.rt as text, and proofs/**/*.antt for point 8. A line for each place: POINT file:line what; then the counts.
[C] marks what stands in giamuvich, the functions that C calls; their exports in giamuvich_c count in point 2 alone.
docs/DESIGN-PASS.md says what each point looks for.
"""
import collections, difflib, functools, itertools, re, sys
from pathlib import Path

ROOT = Path(sys.argv[1] if len(sys.argv) > 1 else ".")
INTEGERS = {"u8", "u16", "u32", "u64", "usize"}
KIND_NAMES = {"code", "ending", "application", "stored", "block_type", "kind", "phase", "reply", "t"}
FLAG_NAMES = r"(opened|found|known|present|given|has_\w+|is_\w+)"
ORDINALS = {"first", "second", "third", "fourth"}
KEYWORDS = set("as break const continue else false fn for if in let loop match mut pub ref return self Self true while".split())
LITERAL = r"\bu\d+::MAX\b|b?'(?:\\.|[^'\\])'|b?\"[^\"]*\"|0x[0-9a-fA-F_]+|\b\d[\w]*"
Function = collections.namedtuple("Function", "file line name params result clauses body owner")
Type = collections.namedtuple("Type", "file line kind name parts")
places = []


def place(point, kind, item, what, group=()):
    mark = " [C]" if any(crate(x) == "giamuvich" for x in (item, *group)) else ""
    places.append((point, kind, f"{item.file}:{item.line}", what + mark))


def crate(item):
    return item.file.split("/")[1]


# Reading the sources.

def closing(text, start):
    """The offset after the bracket that closes the one at `start`; -> closes nothing."""
    depth, angle = 0, text[start] == "<"
    for i in range(start, len(text)):
        if text[i] in ("<([{" if angle else "([{"):
            depth += 1
        elif text[i] in (">)]}" if angle else ")]}") and text[i - 1:i + 1] != "->":
            depth -= 1
            if depth == 0:
                return i + 1
    return len(text)


def split(text, separator=","):
    """The parts of a list, at separators that stand in no bracket."""
    parts, depth, begin = [], 0, 0
    for i, c in enumerate(text):
        depth += (c in "([{<") - (c in ")]}" or (c == ">" and text[i - 1] not in "-="))
        if c == separator and depth == 0:
            parts.append(text[begin:i])
            begin = i + 1
    return [part.strip() for part in parts + [text[begin:]] if part.strip()]


def read_functions(file, text):
    impls = re.finditer(r"^impl\b[^{\n]*?(\w+)[^{\w]*(?=\{)", text, re.M)
    impls = [(m.start(), closing(text, m.end()), m[1]) for m in impls]
    for m in re.finditer(r"^[ \t]*(?:pub(?:\(\w+\))? )?(?:extern \"\w+\" )?fn (\w+)", text, re.M):
        at = m.end()
        if text[at] == "<":
            at = closing(text, at)
        end = closing(text, at)
        params = [tuple(part.split(":", 1)) for part in split(text[at + 1:end - 1]) if ":" in part]
        params = [(re.sub(r"^mut ", "", name), kind.strip()) for name, kind in params]
        clauses, result, at = [], "", end
        while True:
            brace = text.find("{", at)
            if brace < 0:
                break
            before = text[at:brace]
            result = result or "".join(re.findall(r"->\s*([^\n{]+)", before)[:1]).strip()
            after = closing(text, brace)
            clause = re.search(r"^\s*(requires|ensures)\b[^\n]*$", before, re.M)
            if not clause and not re.search(r"^\s*decreases\b", before, re.M):
                owner = next((o for s, e, o in impls if s < m.start() < e), "")
                line = text[:m.start()].count("\n") + 1
                yield Function(file, line, m[1], params, result, clauses, text[brace + 1:after - 1], owner)
                break
            if clause:
                clauses.append((clause[1], text[brace + 1:after - 1].strip()))
            at = after


def read_types(file, text):
    for m in re.finditer(r"^(?:pub(?:\(\w+\))? )?(struct|enum) (\w+)[^{;(]*\{", text, re.M):
        body = text[m.end():closing(text, m.end() - 1) - 1]
        parts = [re.sub(r"^pub(\(\w+\))? ", "", re.sub(r"^\s*#\[[^\]]*\]\s*", "", part)) for part in split(body)]
        yield Type(file, text[:m.start()].count("\n") + 1, m[1], m[2], parts)


functions, types, sources = [], [], {}
for path in sorted(ROOT.glob("crates/*/src/**/*.rt")):
    name = str(path.relative_to(ROOT))
    sources[name] = re.sub(r"//[^\n]*", "", path.read_text())
    functions += read_functions(name, sources[name])
    types += read_types(name, sources[name])
aliases = {a for text in sources.values() for a in re.findall(r"\btype (\w+)[^=;]*= (?:Option|Result)<", text)}
enums = {t.name for t in types if t.kind == "enum"} | aliases
inner = [f for f in functions if crate(f) != "giamuvich_c"]


def lines_of(function):
    return [line.strip() for line in function.body.splitlines() if line.strip()]


def is_enum(kind):
    """Whether it is one of the enums, an Option or a Result."""
    return re.sub(r"<.*", "", kind).split("::")[-1] in enums | {"Option", "Result"}


# Point 1: own Options and Results, flags beside a value, numbers for kinds and refusals.

def payload(variant):
    held = re.search(r"[({](.*)[)}]", variant, re.S)
    return split(held[1]) if held else []


def point_1_types():
    for t in types:
        if t.kind == "enum":
            held = [bool(payload(v)) for v in t.parts]
            shape = {(2, 1): "Option", (2, 2): "Result", (3, 1): "Result with two failures"}.get((len(held), sum(held)))
            if shape:
                place(1, "enum", t, f"enum {t.name}: {shape} shape ({', '.join(t.parts)})")
            for v in t.parts:
                if v.startswith("Refused(") and payload(v)[0] in INTEGERS:
                    place(1, "refusal", t, f"{t.name}::{v}: a refusal's number")
            continue
        for part in t.parts:
            field, kind = [x.strip() for x in part.split(":", 1)]
            told = field in ("refusal", "block") or field == "number" and re.search("Refus|Err", t.name)
            if kind in INTEGERS and told:
                place(1, "refusal", t, f"{t.name}.{field}: {kind}: a refusal's number")
            if kind == "bool" and re.fullmatch(FLAG_NAMES, field):
                place(1, "flag", t, f"{t.name}.{field}: a flag beside a value")
            if kind in INTEGERS and field in KIND_NAMES:
                place(1, "kind", t, f"{t.name}.{field}: {kind}: a number for a kind")


def point_1_answers():
    """A function answers a refusal's number if it names one of the table, or hands on what such a function answers."""
    answers = set()
    wide = [f for f in functions if f.result == "u64"]
    for _ in range(10):
        for f in wide:
            named = re.search(r"refusal::[A-Z_]+\b|Refusal::[A-Z_]+\b|\.refusal\b|\bRefused\(\w+|\brefusal\.number\b", f.body)
            if named or set(re.findall(r"(\w+)\(", f.body)) & answers:
                answers.add(f.name)
    for f in inner:
        if f.name in answers and f.result == "u64":
            place(1, "answer", f, f"fn {f.name} -> u64: a refusal's number, or 0")


def is_made_of_number(f):
    """An enum made of plain numbers by tests of them, or a number made by two tests or more."""
    kinds, body = [kind for _, kind in f.params], " ".join(lines_of(f))
    tests = len(re.findall(r"\b(?:if|match) (\w+) (?:== |\{)", body))
    return bool(kinds) and set(kinds) <= INTEGERS and (is_enum(f.result) and tests > 0 or f.result in INTEGERS and tests > 1)


def point_1_parameters():
    made = "|".join(f.name for f in inner if is_made_of_number(f) or re.search(r"refusal::[A-Z_]+ <=? \w+\)", f.body))
    for f in inner:
        for name, kind in f.params:
            told = rf"refusal::[A-Z_]+ <= {name}\b|\b{name} (==|<=) refusal::|\b({made})\({name}\b"
            kept = rf"\brefusal: {name}\b|Refused\({name}\b|\.block = {name}\b"
            if kind not in INTEGERS:
                continue
            if re.fullmatch(FLAG_NAMES, name):
                place(1, "flag", f, f"fn {f.name}({name}: {kind}): a flag beside a value")
            elif name in KIND_NAMES or re.search(told, f.body):
                place(1, "kind", f, f"fn {f.name}({name}: {kind}): a number for a kind")
            elif name in ("refusal", "block") or re.search(kept, f.body):
                place(1, "refusal", f, f"fn {f.name}({name}: {kind}): a refusal's number")


def point_1_tables():
    for file, text in sources.items():
        consts = re.findall(r"^pub const (\w+): u\d+ = (\d+);", text, re.M)
        if len(consts) > 2 and [int(v) for _, v in consts] == list(range(int(consts[0][1]), int(consts[0][1]) + len(consts))):
            at = Type(file, text[:text.index("pub const")].count("\n") + 1, "", "", [])
            place(1, "table", at, f"consts {consts[0][0]} .. {consts[-1][0]}: {len(consts)} numbers for kinds")


# Point 2: twins. Point 7: families and switches.

def tokens_of(body, constants="0"):
    """The body's words: literals and constants are one word, or stay; parameters and variables are numbered in their order."""
    numbers, out = {}, []
    words = re.findall(LITERAL + r"|\w+|->|=>|::|[^\w\s]", body)
    for i, word in enumerate(words):
        before, after = words[i - 1] if i else "", words[i + 1] if i + 1 < len(words) else ""
        if re.fullmatch(LITERAL, word) or word in ("true", "false") or re.fullmatch(r"[A-Z][A-Z0-9_]+", word):
            word = constants or word
        elif re.match(r"[a-z_]", word) and word not in KEYWORDS and after not in ("(", "!", "::", ":") and before not in (".", "::"):
            word = "v%d" % numbers.setdefault(word, len(numbers))
        out.append(word)
    return out


def steps_of(tokens):
    """The same with the functions that are called left out, and which they are."""
    called = [i for i, w in enumerate(tokens[:-1]) if tokens[i + 1] == "(" and re.match(r"[a-z]", w) and w not in KEYWORDS and tokens[i - 1] != "."]
    return tuple("f" if i in called else w for i, w in enumerate(tokens)), tuple(tokens[i] for i in called)


def groups_of(items, pairs):
    """The sets of items that the pairs join."""
    root = {item: item for item in items}

    def find(x):
        while root[x] != x:
            x = root[x]
        return x
    for a, b in pairs:
        root[find(a)] = find(b)
    groups = collections.defaultdict(list)
    for item in items:
        groups[find(item)].append(item)
    return [g for g in groups.values() if len(g) > 1]


def is_near(a, b, ratio=0.85):
    if 2 * min(len(a), len(b)) <= ratio * (len(a) + len(b)):
        return False
    match = difflib.SequenceMatcher(None, a, b, False)
    return match.real_quick_ratio() > ratio and match.quick_ratio() > ratio and match.ratio() > ratio


def untyped(words):
    return ["T" if re.match(r"[A-Z]\w", w) else w for w in words]


@functools.cache
def table_of(body):
    """A body that is one match whose arms are words: its words, fields left out, and types where it hands on what a variant holds."""
    arms = [arm for _, arms in arms_of(body) for arm in arms]
    plain = arms and all(re.fullmatch(r"[\w.]+( as \w+)?", arm) for arm in arms) and body.lstrip().startswith("match")
    words = tokens_of(body, "") if plain else []
    words = [w for i, w in enumerate(words) if words[i - 1] != "."]
    return untyped(words) if "(" in words else words


def are_twins(f, g, one, other):
    """The same but for types and constants; from five lines on, nearly the same will do."""
    lines = min(len(lines_of(f)), len(lines_of(g)))
    tables = table_of(f.body), table_of(g.body)
    if any(tables):
        return tables[0] == tables[1]
    if lines < 4:
        return one == other and f.name == g.name and crate(f) != "giamuvich"
    return untyped(one) == untyped(other) or lines > 4 and is_near(one, other)


def names(group):
    return ", ".join(f"{crate(x)}::{x.owner + '::' if getattr(x, 'owner', '') else ''}{x.name}" for x in group)


def points_2_and_7():
    exported = {f.name for f in functions if crate(f) == "giamuvich_c"}
    for f in [f for f in functions if crate(f) == "giamuvich" and f.name in exported]:
        place(2, "export", f, f"giamuvich::{f.name} and giamuvich_c::{f.name}")
    keys = {f.file + f.name + f.owner: f for f in inner}
    tokens = {key: tokens_of(f.body) for key, f in keys.items()}
    steps = {key: steps_of(words) for key, words in tokens.items()}
    families, twins = [], []
    for a, b in itertools.combinations(keys, 2):
        f, g = keys[a], keys[b]
        (one, calls), (other, others) = steps[a], steps[b]
        if one == other and len(lines_of(f)) > 2 and sum(x != y for x, y in zip(calls, others)) == 1:
            families.append((a, b))
        elif are_twins(f, g, tokens[a], tokens[b]):
            twins.append((a, b))
    for point, kind, pairs in ((2, "functions", twins), (7, "family", families)):
        for group in groups_of(keys, pairs):
            fs = [keys[key] for key in group]
            place(point, kind, fs[0], names(fs), fs)


def point_2_types():
    shapes = collections.defaultdict(list)
    for t in types:
        shapes[t.kind, tuple(sorted(re.split(r"[({:]", p)[0].strip() for p in t.parts))].append(t)
    for (kind, parts), group in shapes.items():
        if len(group) > 1 and parts:
            place(2, "types", group[0], f"{kind}s with {', '.join(parts)}: {names(group)}")


def arms_of(body):
    """The arms of each match in the body: what stands after =>."""
    for m in re.finditer(r"\bmatch\b[^{]*\{", body):
        block = body[m.end():closing(body, m.end() - 1) - 1]
        arms, at = [], 0
        while (at := block.find("=>", at)) >= 0:
            at += 2
            rest = block[at:].lstrip()
            arm = rest[:closing(rest, 0)] if rest.startswith("{") else split(rest)[0] if rest else ""
            arms.append(arm)
            at += len(block[at:]) - len(rest) + len(arm)
        yield m.start(), arms


def point_7():
    for f in inner:
        run = {}
        for _, arms in arms_of(f.body):
            arms = [re.sub(r"^\{|return |;|\}$", "", arm).strip() for arm in arms]
            calls = [re.fullmatch(r"(?:[A-Z]\w*::\w+\()*((?:\w+::)*[a-z_]\w*)\((.*?)\)*", arm, re.S) for arm in arms]
            if len(arms) > 1 and all(calls) and len({c[1] for c in calls}) > 1:
                shared = set.intersection(*[set(split(c[2])) for c in calls])
                if shared:
                    run.update(dict.fromkeys(c[1] for c in calls))
        if run:
            place(7, "switch", f, f"fn {f.name}: match runs one of {', '.join(run)}")
        if re.search(r"\bfn\s*\([^)]*\)\s*->", " ".join(kind for _, kind in f.params) + f.body):
            place(7, "table", f, f"fn {f.name}: a function pointer")


# Point 3: loops that count by hand.

def point_3():
    for f in functions:
        for m in re.finditer(r"\b(while|loop)\b([^{]*)\{", f.body):
            block = f.body[m.end():closing(f.body, m.end() - 1) - 1]
            for v in dict.fromkeys(a or b for a, b in re.findall(r"\b(\w+) [+-]= \d+;|\b(\w+) = \2 [+-] \d+;", block)):
                used = rf"\[[^\]]*\b{v}\b|\b{v} (?:[<>=!]=?|- ?\d+ <) ?|[<>=!]=? \b{v}\b|len\(\) - {v}\b"
                if re.search(used, m[2] + re.sub(rf"\b{v} [+-]= \d+;|let [^;]*;(?<!\])", lambda x: x[0] if "[" in x[0] else "", block)):
                    line = f.line + sources[f.file].split("\n", f.line - 1)[-1].split(f.body)[0].count("\n") + f.body[:m.start()].count("\n")
                    place(3, "loop", f._replace(line=line), f"fn {f.name}: {m[1]} counts {v}")


# Point 4: equality, order, copying, conversion and printing by hand.

def point_4():
    for f in inner:
        kinds = [kind for _, kind in f.params]
        body = " ".join(lines_of(f))
        self_kind = f.owner if f.owner in enums and not f.params else ""
        if f.result == "bool":
            if len(kinds) == 2 and kinds[0] == kinds[1] and kinds[0] not in INTEGERS | {"bool"} and re.search(r"\b(match|while|for|loop)\b", body):
                place(4, "equality", f, f"fn {f.name}: equality of two {kinds[0]}")
            if len(re.findall(r"\w\[\d+\] == ", body)) > 2:
                place(4, "equality", f, f"fn {f.name}: equality one by one")
            arms = [arm for _, arms in arms_of(body) for arm in arms]
            if arms and len(kinds) == 1 and all(arm in ("true", "false") for arm in arms) or re.search(r"else \{ return true; \}; false$", body):
                place(4, "variant", f, f"fn {f.name}: which variant it is, by match")
        if re.search(r"\bif (\w+) < (\w+) \{ \1 \} else \{ \2 \}", body):
            place(4, "order", f, f"fn {f.name}: the smaller of two")
        if re.search(r"\w+\[[^\]]*\b(\w+)\] = \w+\[\1\];", body):
            place(4, "copying", f, f"fn {f.name}: copying in a loop")
        if f.result in ("u8", "u64") and (len(kinds) == 1 and is_enum(kinds[0]) or self_kind) and re.search(r"\bmatch\b|\belse \{", body):
            place(4, "conversion", f, f"fn {f.name}: {self_kind or kinds[0]} to {f.result}")
        if f.result in INTEGERS and kinds == ["bool"] and re.fullmatch(r"if \w+ \{ (return )?1;? \}( else \{)? 0( \})?", body):
            place(4, "conversion", f, f"fn {f.name}: bool to {f.result}")
        if is_made_of_number(f):
            place(4, "conversion", f, f"fn {f.name}: {', '.join(kinds)} to {f.result}")
        if len(kinds) == 1 and kinds[0] in INTEGERS and f.result in INTEGERS and re.fullmatch(r"\(?[\w% ]+\)? as \w+", body):
            place(4, "conversion", f, f"fn {f.name}: {kinds[0]} to {f.result} by as")
        if len(kinds) == 1 and is_enum(kinds[0]) and re.search(r"\{ kind: \d", body):
            place(4, "conversion", f, f"fn {f.name}: {kinds[0]} to {f.result}, a kind's number")
        if re.search(r"/ 10\b|digit_of\(", body):
            place(4, "printing", f, f"fn {f.name}: decimal digits by hand")
        printed = [k for n, k in f.params if is_enum(k) and re.search(rf"\b{n}\.|= {n} else|match {n}\b", body)]
        if f.name.startswith("print_") and printed:
            place(4, "printing", f, f"fn {f.name}: prints {printed[0]}")
    for file, text in sources.items():
        for m in re.finditer(r"^impl\b.*\b(PartialEq|Eq|PartialOrd|Ord|Clone|Copy|Debug|Default)\b.* for .*\{", text, re.M):
            place(4, "impl", Type(file, text[:m.start()].count("\n") + 1, "", "", []), m[0])


def point_4_copies():
    """Struct literals of which half the fields or more, and not all, come from the same fields of one value."""
    structs = {t.name for t in types if t.kind == "struct"}
    for f in functions:
        local = dict(re.findall(r"let (\w+) = (\w+\.\w+);", f.body))
        for m in re.finditer(r"\b([A-Z]\w+) \{", f.body):
            fields = split(f.body[m.end():closing(f.body, m.end() - 1) - 1])
            if m[1] not in structs or len(fields) < 2 or any(x.startswith("..") for x in fields):
                continue
            pairs = [re.fullmatch(r"(\w+)(?:: (.*))?", x, re.S) for x in fields]
            values = [local.get(p[2] or p[1], p[2] or p[1]) + "|" + p[1] for p in pairs if p]
            origins = collections.Counter(v.split(".")[0] for v in values if re.fullmatch(r"(\w+)\.(\w+)\|\2", v))
            if origins and len(fields) / 2 <= max(origins.values()) < len(fields):
                place(4, "fields", f, f"fn {f.name}: {m[1]} made anew with {max(origins.values())} of {len(fields)} fields from {max(origins, key=origins.get)}")


# Point 5: facts that are said again and again, and parameters that travel together.

def point_5():
    facts, runs = collections.defaultdict(dict), collections.defaultdict(set)
    for f in inner:
        for kind, clause in f.clauses:
            for fact in re.split(r" × ", re.sub(r"^\((.*)\)$", r"\1", clause)):
                if "result" in fact or kind == "ensures" and ".new" in fact:
                    continue
                order, known = {}, {n for n, _ in f.params}
                shape = re.sub(r"(?<![.\w])[a-z_]\w*", lambda m: order.setdefault(m[0], f"x{len(order) + 1}") if m[0] in known else m[0], fact)
                facts[crate(f), kind + " " + " ".join(shape.split())].setdefault(f.file + f.name, f)
        params = tuple(f.params)
        for i, j in itertools.combinations(range(len(params) + 1), 2):
            if j - i > 2:
                runs[params[i:j]].add(f.file + f.name)
    by_key = {f.file + f.name: f for f in inner}
    for (_, fact), where in facts.items():
        if len(where) > 2:
            place(5, "fact", next(iter(where.values())), f"{fact} (in {len(where)}): {names(where.values())}")
    for run, where in runs.items():
        bigger = any(len(r) > len(run) and w == where and str(run)[1:-1].rstrip(",") in str(r) for r, w in runs.items())
        if len(where) > 2 and not bigger:
            fs = sorted((by_key[k] for k in where), key=lambda f: (f.file, f.line))
            place(5, "travel", fs[0], f"{', '.join(n + ': ' + k for n, k in run)} (in {len(fs)}): {names(fs)}", fs)


# Point 6: buffers with a length, parallel fields, words one by one.

def point_6():
    for t in types:
        fields = [p.split(":")[0].strip() for p in t.parts]
        if t.kind == "struct" and len(ORDINALS & set(fields)) > 1:
            place(6, "parallel", t, f"{t.name}: fields {', '.join(f for f in fields if f in ORDINALS)}" + (" with a length" if "length" in fields else ""))
        if t.kind == "struct" and {"start", "offset"} & set(fields) and "length" in fields:
            place(6, "slice", t, f"{t.name}: a part as offset and length")
    for f in functions:
        if len([n for n, _ in f.params if n in ORDINALS]) > 1:
            place(6, "parallel", f, f"fn {f.name}: parameters {', '.join(n for n, _ in f.params if n in ORDINALS)}")
        for v, size in re.findall(r"let mut (\w+) = \[0\w*; ([^\]]+)\]", f.body):
            if re.search(rf"\b{v}\[\.\.|&mut {v}\b", f.body):
                place(6, "buffer", f, f"fn {f.name}: {v}, an array of {size} that is handed on or cut")
        for n, kind in f.params:
            written = len(re.findall(rf"\b{n}\[\d+\] = ", f.body))
            read = len(re.findall(rf"\b{n}\[\d+\](?! =[^=])", f.body))
            if written > 1:
                place(6, "words", f, f"fn {f.name}: writes {n}[..] one by one ({written})")
            elif read > 1 and kind == "&[u64]":
                place(6, "words", f, f"fn {f.name}: reads {n}[..] one by one ({read})")


# Point 8: the proofs.

def point_8():
    for home in sorted(ROOT.glob("crates/*/proofs")):
        answers = goals = lemmas = 0
        for path in home.glob("**/*.antt"):
            text = path.read_text()
            if path.name == "Answers.antt":
                answers += 1
                goals += len(re.findall(r"^\S[^\n]* : goal\.", text, re.M))
            elif path.name != "Invariants.antt":
                lemmas += len(re.findall(r"^ {0,4}(?:abbrev |pub )*[^\s(){}:]+ : ", text, re.M))
        yield home.parent.name, answers, goals, lemmas


point_1_types(), point_1_tables(), point_1_answers(), point_1_parameters(), points_2_and_7(), point_2_types()
point_3(), point_4(), point_4_copies(), point_5(), point_6(), point_7()
for point, kind, where, what in sorted(places, key=lambda p: (p[0], p[1], p[2].split(":")[0], int(p[2].split(":")[1]))):
    print(f"{point} {where} {kind}: {what}")
rows = list(point_8())
for name, answers, goals, lemmas in rows:
    print(f"8 crates/{name}/proofs: {answers} Answers.antt, {goals} goals answered, {lemmas} lemmas and definitions")
print()
for point in range(1, 8):
    kinds = collections.Counter(kind for p, kind, _, _ in places if p == point)
    for_c = sum(p == point and what.endswith("[C]") for p, _, _, what in places)
    print(f"point {point}: {sum(kinds.values())}, {for_c} of them [C] ({', '.join(f'{kind} {n}' for kind, n in sorted(kinds.items()))})")
print(f"point 8: {sum(r[1] for r in rows)} Answers.antt, {sum(r[2] for r in rows)} goals, {sum(r[3] for r in rows)} lemmas and definitions")
