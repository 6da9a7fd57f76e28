#!/usr/bin/env python3
"""Brings the repository's own definitions, lemmas, labels and aliases to snake case, after port.py has run.

usage: tools/respell.py [--said]     at the top of the checkout

A name that stands in specs/*.antt or proofs/*.antt of a crate, with a dash or with a capital behind a small letter, gets
its words joined by `_`. Names in capitals, types and what Rattle makes keep theirs. Where two names fall together, or one
falls on a word that a file imports, OTHER says what is written. --said only prints what falls together.
"""
import glob
import re
import sys

# names that would fall together with another one, and what is written for them
OTHER = {
    "fault-told": "fault_told_lem",
    "first-fault": "first_fault_lem",
    "free-at": "free_at_lem",
    "free-row": "free_row_lem",
    "is-in": "is_in_lem",
    "is-turn": "is_turn_lem",
    "logged-in": "logged_in_lem",
    "login-in": "login_in_lem",
    "long-refusal": "long_refusal_lem",
    "place-told": "place_told_lem",
    "step-refusal": "step_refusal_lem",
    "string-at": "string_at_lem",
    "turn-told": "turn_told_lem",
    "wait-of": "wait_of_lem",
    "written-told": "written_told_lem",
    "is-row": "is_row_lem",
    "list-of": "list_of_lem",
    "frame-of": "frame_made",
}

TOKEN = re.compile(r"[A-Za-z_][A-Za-z0-9_'₀-₉′]*(?:-[A-Za-z0-9_'₀-₉′]+)*")
ALIAS = re.compile(r"(?<=\bas )([a-z][A-Za-z0-9]*[A-Z][A-Za-z0-9]*)\b")
DECLARED = re.compile(r"^\s*(?:(?:unfoldable|abbrev|opaque|private|pub) )*([^\s(){}:,.]+)(?: \{[^}]*\})* :(?: |$)")
TYPES = re.compile(r"^\s*(?:(?:unfoldable|abbrev|opaque|private|pub) )*(?:record|data) ([^\s(){}:,.]+)")


def snake(name):
    """The words of a name, joined by `_`: small letters, but for words in capitals."""
    words = []
    for part in name.split("-"):
        part = re.sub(r"(?<=[a-z0-9'])(?=[A-Z])", "_", part)
        words += [w if w.isupper() else w[:1].lower() + w[1:] for w in part.split("_")]
    return re.sub(r"^get_d_", "get_or_", "_".join(words))


def turns(name):
    return not name[0].isupper() and ("-" in name or re.search(r"[a-z0-9'][A-Z]", name))


def declared():
    """The names that turn, each with the files that declare it; and which of them are labels of records."""
    names, facts = {}, set()
    for path in sorted(glob.glob("crates/*/specs/*.antt") + glob.glob("crates/*/proofs/*.antt")):
        for line in open(path):
            m = DECLARED.match(line) or TYPES.match(line)
            if not m:
                continue
            name = m.group(1)
            if turns(name):
                names.setdefault(name, set()).add(path)
                if re.search(r" : (.*→ )?Type 0\s*$", line) and "-" not in name:
                    facts.add(name)
    return names, facts


def mapping():
    names, facts = declared()
    new = {}
    for name in names:
        new[name] = OTHER.get(name) or (name[0].upper() + name[1:] if name in facts else snake(name))
    return names, new


def turned(text, new, backquoted=False):
    """The text with each name written anew. With backquoted, only a name between backquotes, or one with a capital inside."""
    def one(m):
        word = m.group(0)
        if word not in new:
            return word
        before = text[max(0, m.start() - 60):m.start()]
        after = text[m.end():m.end() + 1]
        if backquoted and "-" in word and not (before.endswith("`") and after == "`"):
            return word
        if before.endswith("."):
            head = re.search(r"([A-Za-z_0-9'-]+)\.$", before)
            if head and head.group(1) in ("tie", "goal"):
                return word
        return new[word]
    return TOKEN.sub(one, text)


def lines_turned(text, new, comment):
    out = []
    for line in text.split("\n"):
        at = line.find(comment)
        if at < 0:
            out.append(turned(line, new))
        else:
            out.append(turned(line[:at], new) + turned(line[at:], new, True))
    return "\n".join(out)


def with_aliases(text, new):
    """The names that turn in one file: those of all files, and what it calls a word by `as`."""
    return {**new, **{alias: snake(alias) for alias in ALIAS.findall(text)}}


def main():
    names, new = mapping()
    if "--said" in sys.argv:
        by = {}
        for old, now in new.items():
            by.setdefault(now, []).append(old)
        for now, olds in sorted(by.items()):
            if len(olds) > 1:
                print("together:", now, [(o, sorted(names[o])) for o in olds])
        return
    files = glob.glob("crates/*/specs/*.antt") + glob.glob("crates/*/proofs/**/*.antt", recursive=True)
    for path in sorted(files):
        text = open(path).read()
        open(path, "w").write(lines_turned(text, with_aliases(text, new), "--"))
    for path in sorted(glob.glob("crates/*/src/**/*.rt", recursive=True)):
        text = open(path).read()
        open(path, "w").write(lines_turned(text, with_aliases(text, new), "//"))
    for path in sorted(glob.glob("crates/*/must-fail/*.edit")):
        text = open(path).read()
        lines = [turned(line, new, True) if line.startswith("#") else line if line.startswith("file:") else turned(line, new)
                 for line in text.split("\n")]
        open(path, "w").write("\n".join(lines))
    known = set(new.values())
    for path in sorted(["README.md"] + glob.glob("docs/**/*.md", recursive=True)):
        text = open(path).read()
        def one(m):
            word = m.group(1)
            now = new.get(word) or (snake(word) if turns(word) and snake(word) in all_names else word)
            return "`" + now + "`"
        all_names = known | defined_now()
        open(path, "w").write(re.sub(r"`([A-Za-z_][A-Za-z0-9_'-]*)`", one, text))


def defined_now():
    names = set()
    for path in glob.glob("crates/*/specs/*.antt") + glob.glob("crates/*/proofs/*.antt"):
        for line in open(path):
            m = DECLARED.match(line) or TYPES.match(line)
            if m:
                names.add(m.group(1))
    return names


main()
