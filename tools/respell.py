#!/usr/bin/env python3
"""Spells the names of this repository's definitions and lemmas in snake case, as `codeTable` and `rows-code` to
`code_table` and `rows_code`: in .antt files, in the clauses of .rt files, in must-fail edits, and in code spans of .md
files. Run once, at the top, after the toolchain's own script. It prints the names that would fall together and then
writes nothing.

A name that ends in a capital's type (`Returned`) stays. A lemma whose plain spelling is that of a definition gets the
name that APART has for it.
"""
import collections
import os
import re
import sys

# A lemma, or a field, that would get the name of a definition.
APART = {
    "least_other": "is_least_other",
    "sheet-numbers": "sheet_numbered",
    "map_read": "map_is_read",
    "coefs-read": "coefs_are_read",
    "is-line": "of_line_form",
    "low-bits": "low_bits_sum",
    "source-at": "source_is_at",
    "by-columns": "least_by_columns",
    "sent-llr": "sent_llr_is",
    "llr-at": "llr_entry",
    "ordered_at": "ordered_entry",
    "check-at": "check_attained",
    "variable-at": "variable_entry",
    "check-from": "check_by_order",
    "taken-from": "taken_by_order",
    "theta-at": "theta_place",
    "phi-at": "phi_place",
    "tree-sum": "sum_of_tree",
    "whole-block": "word_is_whole",
    "full-halves": "full_halves_same",
    "frame-tree": "frame_as_tree",
    "no_zero": "no_zero_at",
    "walk_rows": "walked_rows",
    "walk-on": "walked_on",
    "code-sizes": "sizes_of_code",
    "fed-verdict": "verdict_of_fed",
    "product-bits": "product_by_bits",
    "first_block": "first_is_block",
    "second_block": "second_is_block",
    "at-layer": "layer_given",
    "at-kernels": "kernels_given",
    "first-at": "first_half_at",
    "second_at": "second_half_at",
    "coef-at": "coef_in_tree",
    "coefsAfter": "new_coefs",
    "mapAfter": "new_map",
    "first_of": "first_value",
}
TOKEN = re.compile(r'[^\s(){}.;,@"«»]+')
DECLARED = re.compile(
    r"(?m)^ *(?:(?:abbrev|unfoldable|pub|infix\w* \d+)\s+)*([^\s(){}.;,@\"«»]+)(?: \{[^{}\n]*\})* :(?=\s)( *\S+)?"
)
CAMEL = re.compile(r"[a-z][\w']*[A-Z][\w']*$")
DASHED = re.compile(r"[a-z][\w']*(-[\w']+)+$")
COMMENT = re.compile(r"(?<!\S)--(?!\S)[^\n]*|(?<!\S)--[^\n]*")
# A library's names, in a file that takes them.
TAKEN = re.compile(r"(?m)^use (?!Rattle\.(?!std\.))[\w.]+\.\{([^}]*)\}")
SPAN = re.compile(r"`[^`\n]+`")
CLAUSE = re.compile(r"(?:requires|ensures)\s*(?:\w+\s*)?\{|ghost use [^;]*;")


def files(ending):
    for top in ("crates", "docs", "tools", "README.md", "bench"):
        if os.path.isfile(top):
            if top.endswith(ending):
                yield top
        for folder, folders, names in os.walk(top):
            folders[:] = [f for f in folders if f not in ("out", "target")]
            for name in sorted(names):
                if name.endswith(ending):
                    yield os.path.join(folder, name)


def snake(name):
    return re.sub(r"(?<=[a-z0-9])[A-Z]", lambda m: "_" + m[0].lower(), name).replace("-", "_")


def by_code(text, work):
    """The text with its code outside comments, and the code spans of its comments, as `work` makes them."""
    out, at = [], 0
    for m in COMMENT.finditer(text):
        out += [work(text[at : m.start()]), SPAN.sub(lambda s: work(s[0]), m[0])]
        at = m.end()
    return "".join(out) + work(text[at:])


def table():
    names = dict(APART)
    tokens = collections.defaultdict(set)
    for path in files(".antt"):
        with open(path, encoding="utf-8") as f:
            code = COMMENT.sub("", f.read())
        for m in TOKEN.finditer(re.sub(r"\bRattle\.\w+[\w.]*", "", code)):
            tokens[m[0]].add(path)
        for m in DECLARED.finditer(code):
            name, of = m[1], (m[2] or "").strip()
            goal = path.endswith("/Proof.antt") and re.match(r"tie\.|\{M|statement", of)
            if DASHED.match(name) and not goal and name not in names:
                names[name] = snake(name)
    for token in tokens:
        if CAMEL.match(token) and token not in names:
            names[token] = snake(token)
    met = collections.defaultdict(list)
    for old, new in names.items():
        met[new].append(old)
        if new in tokens and new not in names:
            # in the folder of a function's proof such a name is the function's
            here = {p for p in tokens[new] & tokens[old] if not p.endswith("/Proof.antt")}
            if here:
                met[new].append(f"{new} of {sorted(here)[0]}")
    return names, {new: olds for new, olds in met.items() if len(olds) > 1}


def main():
    names, met = table()
    bad = {new: olds for new, olds in met.items() if new not in ALIKE}
    for new, olds in sorted(bad.items()):
        print(f"falls together: {new}: {', '.join(olds)}")
    if bad and "--force" not in sys.argv:
        return 1

    def work(text, steps=False):  # by `names` as it then is
        """Behind a dot in a function's own proof a name is often that of a step, which no lemma's name changes."""

        def one(m):
            if steps and m[0] in APART and text[max(m.start() - 1, 0)] == ".":
                return snake(m[0])
            return names.get(m[0], m[0])

        return TOKEN.sub(one, text)

    def clauses(text):
        out, at = [], 0
        for m in CLAUSE.finditer(text):
            end = m.end()
            if m[0].endswith("{"):
                depth = 1
                while depth and end < len(text):
                    depth += {"{": 1, "}": -1}.get(text[end], 0)
                    end += 1
            if m.start() < at:
                continue
            out += [text[at : m.start()], work(text[m.start() : end])]
            at = end
        text = "".join(out) + text[at:]
        return re.sub(r"(?m)^ *//[^\n]*", lambda c: SPAN.sub(lambda s: work(s[0]), c[0]), text)

    def edits(text):
        return re.sub(r"(?m)^(old|new): .*$", lambda m: work(m[0]), text)

    def page(text):
        return SPAN.sub(lambda s: work(s[0]), text)

    changed = 0
    for ending, turn in ((".antt", lambda t: by_code(t, work)), (".rt", clauses), (".edit", edits), (".md", page)):
        for path in files(ending):
            with open(path, encoding="utf-8") as f:
                old = f.read()
            taken = {} if ending != ".antt" else {n: n for m in TAKEN.finditer(old) for n in re.split(r",\s*", m[1])}
            names, whole = {**names, **taken}, names
            if path.endswith("/Proof.antt"):
                new = by_code(old, lambda t: work(t, True))
            else:
                new = turn(old)
            names = whole
            if new != old:
                changed += 1
                with open(path, "w", encoding="utf-8") as f:
                    f.write(new)
    print(f"{len(names)} names, {changed} files")
    return 0


# Names that two things have, in files or crates that know nothing of each other, or a field and a definition.
ALIKE = {"at_least_one", "less_least", "message_symbols", "premise_fails", "zero_at"}

if __name__ == "__main__":
    sys.exit(main())
