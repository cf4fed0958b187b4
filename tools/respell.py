#!/usr/bin/env python3
# Brings the names of this repository's definitions and laws to the spelling of today's Rattle: `firstFailing` to `first_failing`,
# `part-is` to `part_is`, `natAbs-add` to `nat_abs-add`. A dash stays only between two names, as that of a definition and of an operation.
# A law that would have a definition's name gets `_lem`. Types, modules and constructors keep their camel case, functions of src/ and
# what the kit declares keep their names. A file specs/Contracts.antt becomes specs/InnerContracts.antt, since Rattle makes a module
# `contracts` there. It is run once, at the top, after the kit's port.py.
import os
import re
import subprocess

WORD = r"[^\s(){}.;,:@\"«»`]+"
CAMEL = re.compile(r"[a-z][a-z0-9]*[A-Z][A-Za-z0-9]*")
TOKEN = re.compile(r"(?<![\w'ℤ\-])[a-zA-Z][\w'ℤ]*(?:-[\w'ℤ]+)*(?![\w'ℤ])")
COMMENT = re.compile(r"(?<![^\s(){}.;,@\"])--[^\n]*")
DECLARED = re.compile(r"^\s*(?:(?:pub|abbrev|unfoldable) )*(%s)\s*:(?=\s)" % WORD, re.M)
CLAUSE = re.compile(r"ghost use [^;]*;|(?:requires|ensures)\*? *(?:\w+ *)?\{(?:[^{}]|\{[^{}]*\})*\}")
OPERATIONS = set("add sub mul div mod neg le lt zero suc append length set get_or take drop addℤ mulℤ".split())


def snake(word):
    return re.sub(r"(?<=[a-z0-9])[A-Z]", lambda capital: "_" + capital.group().lower(), word)


def read(path):
    with open(path, encoding="utf-8") as file:
        return file.read()


def write(path, text):
    with open(path, "w", encoding="utf-8") as file:
        file.write(text)


def listed(*ends):
    paths = subprocess.run(["git", "ls-files"], capture_output=True, text=True, check=True).stdout.splitlines()
    return [path for path in paths if path.endswith(ends) and os.path.isfile(path)]


def code_of(path):
    """What of a file is in antt: an .antt file without its comments, the clauses and ghost items of a .rt file."""
    text = read(path)
    return COMMENT.sub("", text) if path.endswith(".antt") else "\n".join(CLAUSE.findall(text))


def declared(paths):
    return {name for path in paths for name in DECLARED.findall(code_of(path))}


def table():
    """Each name that turns, and what it becomes."""
    antt = listed(".antt")
    specs = declared(path for path in antt if "/specs/" in path)
    laws = declared(path for path in antt if re.search(r"/proofs/[^/]*\.antt$", path)) - specs
    turned = {}
    for path in antt + listed(".rt"):
        for token in TOKEN.findall(code_of(path)):
            if "-" not in token and CAMEL.fullmatch(token):
                turned[token] = snake(token)
    definitions = {turned.get(name, name) for name in specs}

    def law(name):
        first, *rest = [snake(part) if CAMEL.fullmatch(part) else part for part in name.split("-")]
        new = first
        for part in rest:
            new += ("-" if first in definitions | {"nat_abs"} and part in OPERATIONS else "_") + part
        return new + "_lem" if new in definitions else new

    for name in laws:
        if law(name) != name:
            turned[name] = law(name)
    taken = {}
    for name, new in sorted(turned.items(), key=lambda pair: "-" in pair[0]):
        if new in taken:
            print("two names fall together: %s and %s, as %s" % (taken[new], name, new))
            turned[name] = new = new + "_lem"
        taken[new] = name
    return turned


def respelled(text, turned):
    text = TOKEN.sub(lambda word: turned.get(word.group(), word.group()), text)
    # what read `guess as guessOf` may read `x as x` now
    return re.sub(r"(?<![\w-])([\w-]+) as \1(?![\w-])", r"\1", text)


def within(pattern, text, turned):
    return pattern.sub(lambda part: respelled(part.group(), turned), text)


def main():
    os.chdir(subprocess.run(["git", "rev-parse", "--show-toplevel"], capture_output=True, text=True, check=True).stdout.strip())
    turned = table()
    camel = {name: new for name, new in turned.items() if "-" not in name and name != name.lower()}
    for path in listed(".antt", ".rt", ".edit", ".md"):
        text = new = read(path)
        if path.endswith(".antt"):
            # laws turn in a comment only between backticks
            parts = COMMENT.split(text)
            comments = COMMENT.findall(text)
            for i, comment in enumerate(comments):
                comments[i] = within(re.compile(r"`[^`\n]*`"), respelled(comment, camel), turned)
            new = "".join(respelled(part, turned) + comment for part, comment in zip(parts, comments + [""]))
        elif path.endswith(".rt"):
            new = within(re.compile(r"//[^\n]*"), within(CLAUSE, text, turned), camel)
        elif path.endswith(".edit"):
            new = respelled(text, turned)
        else:
            new = within(re.compile(r"`[^`\n]*`"), text, turned)
        new = re.sub(r"(\bspecs\.|\bmod |\bspecs/)Contracts\b", r"\1InnerContracts", new)
        if new != text:
            write(path, new)
    for path in listed("/specs/Contracts.antt"):
        subprocess.run(["git", "mv", path, path.replace("Contracts.antt", "InnerContracts.antt")], check=True)
    print("%d names turned" % len(turned))


main()
