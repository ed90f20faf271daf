#!/usr/bin/env python3
"""Brings the repository's own names in specs/ and proofs/ to snake case, once, after the kit's port.py.

usage: python3 tools/respell.py        at the top of the repository

- A definition, a lemma or a field `goOn` or `go-on` is `go_on`; a lemma that would then have its function's name ends in `_lem`.
- What the check writes in proof files (`tie.Need-..`, `c.step-..`) is left as it is.
- The repository's own `==` was std's, so it is imported from there; its `if` is not, and the gate wants another name for it: `when t then a else b`.
"""

import os
import re

CODE = r"[^\s(){},;\[\].`\"]+"
LEMMAS = {"placed-with-flags", "placed-value", "stored-from", "first-only", "beside-memory"}
WORDS = {"use", "infix", "infixl", "infixr", "unfolding", "mod", "pub", "ghost"}


def files(top, *ends):
    for folder, inner, names in os.walk(top):
        inner[:] = sorted(i for i in inner if i not in ("out", ".git", "target"))
        for name in sorted(names):
            if name.endswith(ends):
                yield os.path.join(folder, name)


def text_of(path):
    with open(path, encoding="utf-8") as f:
        return f.read()


def names_of(path):
    """What a file defines: its own words and the fields of its records, but no goal of the check."""
    made = set()
    is_proof = "/proofs/" in path
    in_record = False
    for line in text_of(path).splitlines():
        if not line.strip() or line.lstrip().startswith("--"):
            continue
        if line[0] not in " \t}":
            in_record = bool(re.match(r"(?:(?:pub|unfoldable|abbrev)\s+)*(?:record|data)\b", line))
            m = re.match(r"(?:(?:pub|abbrev|unfoldable|pattern|opaque)\s+)*(record\s+|data\s+|ruleset\s+)?([^\s:(){},]+)\s*(?:\{[^}]*\}\s*)*(.*)$", line)
            if m and m[2] not in WORDS and (m[1] or m[3].startswith(":")):
                if not (is_proof and re.match(r":\s*(tie\b|.*statement)", m[3])):
                    made.add(m[2])
        elif in_record or not is_proof:
            m = re.match(r"\s+(?:(?:pub|abbrev|unfoldable)\s+)*([^\s:(){},]+(?:\s+[^\s:(){},]+)*)\s*:\s", line)
            if m:
                made.update(m[1].split())
    return made


def snake(name):
    parts = [re.sub(r"(?<=[a-z0-9])([A-Z])", lambda m: "_" + m[1].lower(), p) if p[:1].islower() else p for p in name.split("-")]
    return "_".join(parts) + ("_lem" if name in LEMMAS else "")


def renamed(path, text, names):
    """The text with each name respelled; after a dot, a proof file's dashed names are the check's."""
    of_check = "/proofs/" in path

    def turn(m):
        word = m[0]
        if word not in names:
            return word
        line = text[text.rfind("\n", 0, m.start()) + 1 : m.start()]
        if "--" in line and "-" in word and word.count("-") < 2:
            return word
        after_dot = m.start() > 0 and text[m.start() - 1] == "."
        if of_check and after_dot and "-" in word:
            if not re.match(r"\s*(pub |ghost )?use ", line):
                return word
        return names[word]

    return re.sub(CODE, turn, text)


def without_own_tests(text):
    """Own `==` is std's; own `if` is `when`."""
    lines = []
    for line in text.split("\n"):
        m = re.match(r"((?:pub |ghost )*use Rattle\.bits\.specs\.Cases\.\{)([^}]*)(\};?)$", line)
        if m:
            words = [w.strip() for w in m[2].split(",")]
            if "◌==◌" in words:
                words.remove("◌==◌")
                head = m[1].split("use ")[0]
                lines.append(f"{head}use Rattle.std.specs.Prelude.{{◌==◌}}{m[3][1:]}")
            if words:
                lines.append(m[1] + ", ".join(words) + m[3])
            continue
        lines.append(line)
    return "\n".join(lines)


def joined_imports(text):
    """One line for each module that is imported from."""
    seen = {}
    lines = []
    for line in text.split("\n"):
        m = re.match(r"((?:ghost )?use [\w.]+\.\{)([^}]*)(\};?)$", line)
        if m and m[1] in seen:
            at = seen[m[1]]
            old = re.match(r"(.*\{)([^}]*)(\};?)$", lines[at])
            words = [w.strip() for w in old[2].split(",")]
            words += [w.strip() for w in m[2].split(",") if w.strip() not in words]
            lines[at] = old[1] + ", ".join(words) + old[3]
            continue
        if m:
            seen[m[1]] = len(lines)
        lines.append(line)
    return "\n".join(lines)


def with_when(path, text):
    out = []
    for line in text.split("\n"):
        code, dash, note = line.partition("--") if path.endswith(".antt") else (line, "", "")
        is_clause = path.endswith(".antt") or re.match(r"\s*(requires|ensures)\b|(?:old|new): \s*(requires|ensures)\b|ghost use", line)
        if is_clause:
            code = code.replace("if◌then◌else◌", "when◌then◌else◌")
            code = re.sub(r"(?<![\w'.-])if(?=\s)", "when", code)
        out.append(code + dash + note)
    return "\n".join(out)


def main():
    names = {}
    known = set()  # also what port.py had respelled
    for path in files("crates", ".antt"):
        for name in names_of(path):
            known.add(snake(name))
            if "-" in name.strip("-") or re.match(r"[a-z].*[A-Z]", name):
                names[name] = snake(name)
    for path in files("crates", ".antt", ".rt", ".edit"):
        text = text_of(path)
        new = renamed(path, text, names)
        if path.endswith(".edit"):
            new = re.sub(CODE, lambda w: snake(w[0]) if re.match("[a-z]", w[0]) and snake(w[0]) in known else w[0], new)
        new = joined_imports(without_own_tests(new))
        new = with_when(path, new)
        if path.endswith("bits/specs/Cases.antt"):
            new = re.sub(r"infix 40 ◌==◌\nabbrev pub ◌==◌ : [^\n]*\na == b = [^\n]*\n\n", "", new)
        if new != text:
            with open(path, "w", encoding="utf-8") as f:
                f.write(new)
    turn = lambda w: snake(w[0]) if re.match("[a-z]", w[0]) and snake(w[0]) in known else w[0]
    for path in files(".", ".md"):
        text = text_of(path)
        new = re.sub(r"`[^`\n]+`", lambda m: re.sub(CODE, turn, m[0]), text)
        new = re.sub(r"(?m)^    .*$", lambda m: re.sub(CODE, lambda w: turn(w) if re.search("[A-Z]", w[0]) else w[0], m[0]), new)
        if new != text:
            with open(path, "w", encoding="utf-8") as f:
                f.write(new)
    print(f"respell: {len(names)} names")


if __name__ == "__main__":
    main()
