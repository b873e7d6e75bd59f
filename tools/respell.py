#!/usr/bin/env python3
"""Spells this repository's own definitions and lemmas as today's Rattle does. usage: tools/respell.py [--map], once, at the top, right
after port.py.

A word is in snake case: partAddress becomes part_address. A dash joins two names, and a plain word is added with _: drop-none
becomes drop_none, length-put stays. A lemma that would have the name of a definition gets _lem. The names that Rattle makes (behind
a dot, or below proofs/FUNCTION/) stay, and so do the names of the source. --map prints the table and changes nothing.
"""
import collections
import glob
import os
import re
import sys

STOP = r"\s(){}.;,@\"«»"
TOKEN = re.compile(rf"[^{STOP}]+")
DECLARED = re.compile(r"^( *)(?:(?:pub|abbrev|unfoldable) +)*([^\s(){}.;,@\"«»:]+)((?: \{[^{}\n]*\})*) :(?=\s)")
MODULE = re.compile(r"^[A-Z]\w*$")
# Names of std that a lemma's name joins.
OF_STD = set("""append length take drop get set sets put map reverse filter concat head tail min max sub add mul div mod cons nil
sum xor cond not and or""".split())
# A constant has the spelling of the source's.
BY_HAND = {"TOO-SHORT": "TOO_SHORT"}
DEFINED = re.compile(r"(?m)^(?:(?:pub|abbrev|unfoldable) +)*(?:abbrev|unfoldable) +(?:pub +)?([^\s(){}.;,@\"«»:]+)(?: \{[^{}\n]*\})* :(?=\s)")


def texts(*ends):
    for root, dirs, files in os.walk("crates"):
        dirs[:] = sorted(d for d in dirs if d != "out")
        for f in sorted(files):
            if f.endswith(ends):
                yield os.path.join(root, f)


def read(path):
    with open(path, encoding="utf-8") as f:
        return f.read()


def in_snake_case(word):
    return re.sub(r"(?<=[a-z0-9₀-₉])([A-Z])", lambda m: "_" + m[0].lower(), word)


def is_camel(name):
    return re.match(r"[a-zμ]", name) and re.search(r"[A-Z]", name) and "-" not in name


def of_a_function(path):
    return re.search(r"/proofs/.+/", path) is not None


def declared():
    """Names that texts declare: those of specs/ and of files of laws, and which of them are lemmas, definitions or fields."""
    names, own = collections.Counter(), collections.Counter()
    for path in texts(".antt"):
        for line in read(path).splitlines():
            m = DECLARED.match(line)
            # uniqueness is written by tests/interface/uniqueness
            if m and "/uniqueness/" not in path:
                (own if of_a_function(path) else names)[m[2]] += 1
    return names, own


def fields():
    """The fields of records of specs/ and of files of laws."""
    found = set()
    for path in texts(".antt"):
        inside = None
        for line in read(path).splitlines():
            m = re.match(r"( *)(?:pub )?record .*where", line)
            depth = len(line) - len(line.lstrip())
            if m:
                inside = len(m[1])
            elif inside is not None and line.strip():
                inside = inside if depth > inside else None
                m = inside is not None and DECLARED.match(line)
                found |= {m[2]} if m else set()
    return found


def all_tokens():
    seen = collections.Counter()
    for path in texts(".antt"):
        code = re.sub(r"(?m)(?<!\S)--.*$", "", read(path))
        seen.update(TOKEN.findall(code))
    for path in texts(".rt"):
        seen.update(re.findall(r"\w+", re.sub(r"(?m)//.*$", "", read(path))))
    return seen


def table():
    names, own = declared()
    camel = {n: in_snake_case(n) for n in names if is_camel(n)}
    camel |= {n: in_snake_case(n) for n in own if is_camel(n)}
    defined = {n for path in texts(".antt") if "/specs/" in path for n in DEFINED.findall(read(path))}
    known = {in_snake_case(n) for n in defined} | OF_STD

    def lemma(name):
        parts = name.split("-")
        out = parts[0]
        for left, right in zip(parts, parts[1:]):
            joins = in_snake_case(left) in known and in_snake_case(right) in known or MODULE.match(left)
            out += ("-" if joins else "_") + right
        return in_snake_case(out) if re.match(r"[a-z]", out) else out

    seen = all_tokens()
    rows = dict(camel)
    taken = set(rows.values())
    for n in sorted(names):
        if "-" in n and not n.startswith(("Need-", "invariant-", "decreases-")):
            new = lemma(n)
            if new != n:
                while new in taken or new in seen:
                    new += "_lem" if not new.endswith("_lem") else "_2"
                rows[n] = new
                taken.add(new)
    # A lemma that would have the name of a definition.
    for new in sorted(set(camel.values())):
        if new in names and "-" not in new:
            rows[new] = new + "_lem"
    rows.update(BY_HAND)
    return rows


def respelled(code, rows, inside_a_function, labels):
    def one(m):
        word = m[0]
        new = rows.get(word)
        if new is None:
            return word
        if inside_a_function and new == word + "_lem":
            return word
        behind_dot = m.start() > 0 and code[m.start() - 1] == "."
        if behind_dot and "-" in word:
            head = re.search(rf"([^{STOP}]+)\.$", code[: m.start()][-80:])
            is_label = word in labels and not inside_a_function
            if not is_label and not (head and MODULE.match(head[1])):
                return word
        return new

    return TOKEN.sub(one, code)


def turn_antt(text, rows, inside_a_function, labels):
    camel = {k: v for k, v in rows.items() if is_camel(k)}
    out = []
    for line in text.splitlines(keepends=True):
        m = re.search(r"(?<!\S)--(?=\s|$)", line)
        code, comment = (line[: m.start()], line[m.start() :]) if m else (line, "")
        out.append(respelled(code, rows, inside_a_function, labels) + re.sub(r"[A-Za-z]\w*", lambda w: camel.get(w[0], w[0]), comment))
    return "".join(out)


def turn_words(text, rows):
    camel = {k: v for k, v in rows.items() if is_camel(k)}
    return re.sub(r"(?<![\w.-])[A-Za-z]\w*", lambda w: camel.get(w[0], w[0]), text)


def main():
    rows = table()
    labels = fields()
    if "--map" in sys.argv:
        print("\n".join(f"{a}\t{b}" for a, b in sorted(rows.items())))
        return
    camel = {k: v for k, v in rows.items() if is_camel(k)}
    for path in texts(".antt", ".rt"):
        text = read(path)
        new = turn_antt(text, camel if "/uniqueness/proofs/" in path else rows, of_a_function(path), labels) if path.endswith(".antt") else turn_words(text, rows)
        if new != text:
            with open(path, "w", encoding="utf-8") as f:
                f.write(new)


if __name__ == "__main__":
    main()
