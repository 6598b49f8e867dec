#!/usr/bin/env python3
"""Spells the definitions, lemmas, fields and local names of specs/ and proofs/ as today's Rattle does.

usage: tools/respell.py            at the top of the repository, once, after the kit's port.py

Words are in snake case and facts and types in camel case: `count-ops` becomes `count_ops`, and `Never-better` `NeverBetter`.
Names that Rattle makes (goals, invariants, measures, steps) and names of the library stay, and so do all names, strings and comments of
the Rust code. Names in backquotes in the pages are spelled anew too. It says 'look:' where two names fall together.
"""

import collections
import glob
import os
import re
import sys

NAME = r"[^\s(){}.;,@\"«»λ`]+"
DECLARED = re.compile(rf"^\s*(?:(?:abbrev|unfoldable|pub|record|data|ruleset)\s+)*({NAME})(?:\s+[({{][^(){{}}]*[)}}])*\s*:(?![:=])\s*(\S*)")
LOCAL = re.compile(rf"(?:\blet\s+|[({{])({NAME})\s+[:=]\s|\bas ({NAME})")
WORDED = re.compile(r"^[A-Za-z][\w'-]*$")
MADE = re.compile(r"^(goal|given)\.")


def respelled(name):
    name = name.replace("getD", "get_or")
    if name[0].isupper():
        return "".join(w[:1].upper() + w[1:] for w in name.split("-"))
    name = re.sub(r"(?<=[a-z0-9])([A-Z])", lambda m: "_" + m[1].lower(), name)
    return name.replace("-", "_")


def code_of(line, comment):
    """The line's code and its comment."""
    at = re.search(comment, line)
    return (line[: at.start()], line[at.start():]) if at else (line, "")


def antt_files():
    return sorted(glob.glob("crates/*/specs/**/*.antt", recursive=True) + glob.glob("crates/*/proofs/**/*.antt", recursive=True))


def rust_files():
    return sorted(glob.glob("crates/*/src/**/*.rt", recursive=True))


def read(path):
    with open(path, encoding="utf-8") as f:
        return f.read()


def own_names():
    """The names that the texts declare: by each its kind, 'top', 'field' or 'local'; and the names of answers to goals."""
    own, made = collections.defaultdict(set), set()
    for path in antt_files():
        in_record = False
        for line in read(path).split("\n"):
            code, _ = code_of(line, r"(^|\s)-- ")
            if re.match(r"^(pub |abbrev |unfoldable )*(record|data)\b.*\bwhere\s*$", code):
                in_record = True
            elif code.strip() and not code[0].isspace():
                in_record = False
            it = DECLARED.match(code)
            if it and WORDED.match(it[1]):
                if MADE.match(it[2]):
                    made.add(it[1])
                else:
                    own[it[1]].add("field" if in_record and code[0].isspace() else "top")
            for it in LOCAL.finditer(code):
                name = it[1] or it[2]
                if WORDED.match(name):
                    own[name].add("local")
    for path in rust_files():
        for it in re.finditer(rf"\bas ({NAME})(?=[,}}])", "\n".join(l for l in read(path).split("\n") if l.startswith("ghost use "))):
            own[it[1]].add("local")
    return own, made


def main():
    own, made = own_names()
    turned = {n: respelled(n) for n in own if respelled(n) != n and n not in made}
    both = [n for n in own if n in made and respelled(n) != n]
    if both:
        print("look: names of goals and of yours:", *both)
    back = collections.defaultdict(set)
    for n in own:
        back[turned.get(n, n)].add(n)
    for new, olds in back.items():
        if len(olds) > 1 and any("top" in own[n] or "field" in own[n] for n in olds):
            print(f"look: {sorted((o, sorted(own[o])) for o in olds)} fall together as {new}")

    def token(text, at, name):
        """What stands for the name at this place of the text."""
        if name not in turned:
            return name
        if at and text[at - 1] == "." and text[:at].endswith(".."):
            return turned[name]
        if at and text[at - 1] == ".":
            head = re.search(r"([^\s(){};,@\"«»λ`]*)\.$", text[:at])[1]
            if head.startswith("goal"):
                return name
            if re.match(r"^[cwl](\.|$)", head) and "field" not in own[name]:
                return name
            if "field" not in own[name] and not re.search(r"(^|\.)[A-Za-z]\w*$", head):
                return name
        return turned[name]

    def turn(text):
        return re.sub(NAME, lambda m: token(text, m.start(), m[0]), text)

    def turn_quoted(text):
        return re.sub(r"`[^`\n]*`", lambda m: turn(m[0]), text)

    for path in antt_files():
        old = read(path)
        new = []
        for line in old.split("\n"):
            code, comment = code_of(line, r"(^|\s)-- ")
            new.append(turn(code) + turn_quoted(comment))
        write(path, old, "\n".join(new))
    for path in rust_files():
        old = read(path)
        write(path, old, "\n".join(rust_line(l, turn, turn_quoted) for l in old.split("\n")))
    for path in sorted(glob.glob("*.md") + glob.glob("docs/*.md")):
        old = read(path)
        write(path, old, turn_quoted(old))


def rust_line(line, turn, turn_quoted):
    """A name with a dash can stand only in a clause; strings and comments stay."""
    code, comment = code_of(line, r"(^|\s)//")
    if '"' in code or "'" in re.sub(r"\w'", "", code):
        return line
    return turn(code) + turn_quoted(comment)


def write(path, old, new):
    if new != old:
        with open(path, "w", encoding="utf-8") as f:
            f.write(new)


if __name__ == "__main__":
    os.chdir(os.path.dirname(os.path.dirname(os.path.abspath(__file__))))
    sys.exit(main())
