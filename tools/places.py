#!/usr/bin/env python3
"""Lists the places of src/ that docs/DESIGN-PASS.md counts, point by point.

    python3 tools/places.py            of the files as they stand
    python3 tools/places.py COMMIT     of that commit

A place is one line `point  file:line  what`. A pattern finds what looks like the older form; whether a place
is one, a person decides, and the page says so of each that stays."""
import collections
import re
import subprocess
import sys

PROGRAMS = ("hinet_c",)


def told(*words):
    return subprocess.run(["git", *words], capture_output=True, text=True, check=True).stdout


def files(commit, pattern):
    """The files below crates/ whose names the pattern is of, with their text."""
    names = told("ls-tree", "-r", "--name-only", commit, "crates") if commit else told("ls-files", "crates")
    for name in names.split("\n"):
        if re.fullmatch(pattern, name):
            yield name, told("show", f"{commit}:{name}") if commit else open(name, encoding="utf-8").read()


def functions(name, text):
    """Each function: its line, name, parameters, result, clauses and body."""
    for m in re.finditer(r"^( *)(?:pub(?:\(\w+\))? )?(?:extern \"C\" )?fn (\w+)(?:<[^({]*>)?\(", text, re.M):
        depth, i = 1, m.end()
        while depth:
            depth += {"(": 1, ")": -1}.get(text[i], 0)
            i += 1
        params = text[m.end():i - 1]
        rest = text[i:]
        end = re.search(r"^%s\{\n|\{ *$|;\n" % m.group(1), rest, re.M)
        if not end or rest[end.start()] == ";":
            continue
        head = rest[:end.start()]
        close = re.search(r"^%s\}" % m.group(1), rest[end.start():], re.M)
        body = rest[end.end():end.start() + close.start()] if close else ""
        result = (re.match(r" -> ([^\n{]+?)(?: where.*)?\n", head + "\n") or [None, ""])[1]
        clauses = re.findall(r"(?:requires|ensures)(?: \w+)? \{ (.*) \}", head)
        yield text.count("\n", 0, m.start()) + 1, m.group(2), params, result.strip(), clauses, body


def shape(body):
    """A body without its names and numbers."""
    body = re.sub(r"//.*", "", body)
    body = re.sub(r"b?\"[^\"]*\"|b'[^']*'", "S", body)
    body = re.sub(r"\b(?!(?:if|else|for|in|while|return|let|mut|match|as|true|false)\b)[A-Za-z_]\w*(?:::\w+)*\b", "N", body)
    return re.sub(r"\s+", " ", re.sub(r"\b\d[\dA-Fa-fx_]*\w*\b", "0", body)).strip()


def main(commit=""):
    found = []
    twins, facts, groups = (collections.defaultdict(list) for _ in range(3))
    for name, text in files(commit, r"crates/\w+/src/.*\.rt"):
        lines = text.split("\n")
        for n, line in enumerate(lines, 1):
            where = f"{name}:{n}"
            if re.search(r"^ +(pub )?(refusal|good|failed|more|flag): (u8|bool),", line):
                found.append(("1 a flag or number beside a value", where, line.strip()))
            if re.search(r"^pub const [A-Z_0-9]+: u8 = |^const (GOOD|BROKEN|MISUSED|FAILED)\b", line):
                found.append(("1 a number for a kind", where, line.strip()))
            if re.match(r" *while ", line):
                found.append(("3 while", where, line.strip()))
            if re.search(r"\bif (\w[\w.()]*) <=? (\w[\w.()]*) \{ .*\b(\1|\2)\b.* \} else \{ .* \}", line):
                found.append(("4 the lesser or larger by hand", where, line.strip()))
            if re.search(r"b'0' \+|b'A' \+|- b'0'|- b'A'|- 0x30", line):
                found.append(("4 a digit by hand", where, line.strip()))
            if re.search(r"\brows::(wide|index_of)\(|fn (wide|index_of)\(", line):
                found.append(("4 a conversion by a function of its own", where, line.strip()))
        for m in re.finditer(r"enum (\w+) \{\n(.*?)\n\}", text, re.S):
            if re.search(r"^ +(Refused|Faulty|Good|Given|Ended|Honors)\b", m.group(2), re.M) and not re.search(r"\bSite\(", m.group(2)):
                found.append(("1 an enum of the shape of Result", f"{name}:{text.count(chr(10), 0, m.start()) + 1}", m.group(1)))
        for line, fn, params, result, clauses, body in functions(name, text):
            where = f"{name}:{line}"
            literal = re.search(r"^ *(return )?\d+;?$|=> \d+,|\{ \d+ \} else|else \{ \d+ \}|return 0x", body, re.M)
            if result == "u8" and literal and fn not in ("number",):
                found.append(("1 a number for a refusal or an answer", where, fn))
            if result in ("usize", "u32") and re.search(r"return [ijk];", body):
                found.append(("1 an index, or a number for none", where, fn))
            if re.search(r"\b(line|page|buffer|table|list|input|output|text|path|out): &mut \[u8\], (at|n|used|kept|free): usize", re.sub(r"\s+", " ", params)):
                found.append(("6 a buffer with a place beside it", where, fn))
            if name.split("/")[1] not in PROGRAMS:
                # what a trait's impls say one after the other is the generic form itself
                impl = re.findall(r"^impl\b.*$", "\n".join(lines[:line]), re.M)
                instance = lines[line - 1].startswith(" ") and impl and " for " in impl[-1]
                if body.count("\n") >= 2 and not instance:
                    twins[shape(body)].append((where, fn))
                for clause in set(c for all_ in clauses for c in split(all_)):
                    facts[clause].append((where, fn))
                names = [re.sub(r"\s+", " ", p).strip() for p in re.split(r",(?![^<\[(]*[>\])])", params) if p.strip()]
                for i in range(len(names) - 2):
                    groups[", ".join(names[i:i + 3])].append((where, fn))
        for m in re.finditer(r"struct (\w+)(?:<[^>]*>)? \{\n(.*?)\n\}", text, re.S):
            if re.search(r": \[u8; \d+\],", m.group(2)) and re.search(r"\b(len|first|end): (u8|usize),", m.group(2)):
                found.append(("6 a buffer with its length beside it", f"{name}:{text.count(chr(10), 0, m.start()) + 1}", m.group(1)))
        for m in re.finditer(r"match (system|what|step)\b", text):
            found.append(("7 a switch on which to run", f"{name}:{text.count(chr(10), 0, m.start()) + 1}", m.group(0)))
    answers = collections.defaultdict(list)
    for name, text in files(commit, r"crates/\w+/proofs/.*/Answers\.antt"):
        for m in re.finditer(r"^pub (\S+) : goal\.\S+\n(?:unfolding .*\n)?\1 \w+(?: \w+)? =((?:.|\n(?!\n|pub ))*)", text, re.M):
            place = f"{name}:{text.count(chr(10), 0, m.start()) + 1}"
            answers[name.split("/")[1], re.sub(r"\s+", " ", m.group(2))].append((place, m.group(1)))
    for (crate, body), where in answers.items():
        if len(where) > 2:
            for place, goal in where:
                found.append(("8 an answer that two others of its crate have too", place, goal))
    for body, where in twins.items():
        if len(where) > 1:
            for place, fn in where:
                found.append(("2 a twin", place, f"{fn} (one of {len(where)})"))
    for clause, where in facts.items():
        if len(where) > 2:
            found.append(("5 a fact in three contracts or more", where[0][0], f"{clause} (in {len(where)})"))
    for names, where in groups.items():
        if len(where) > 2:
            found.append(("5 parameters that travel together", where[0][0], f"{names} (in {len(where)})"))
    for point, where, what in sorted(found):
        print(f"{point}  {where}  {what}")
    print()
    for point, n in sorted(collections.Counter(point for point, _, _ in found).items()):
        print(f"{n:4}  {point}")


def split(clause):
    """The facts of a clause, joined by ×."""
    if "→" in clause:
        return [clause]
    parts = [p.strip() for p in clause.split(" × ")]
    return [p.strip("()") if p.count("(") == p.count(")") else p for p in parts if "result" not in p and ".new" not in p and len(p) > 12]


if __name__ == "__main__":
    main(*sys.argv[1:])
