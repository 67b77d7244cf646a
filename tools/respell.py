#!/usr/bin/env python3
"""Brings the names of this repository's definitions and lemmas to the spelling of today's Rattle.

Run once at the top of a checkout, after the kit's port.py. Words are in snake case and types in upper camel case, so a
dash inside a name that specs/ or a file of lemmas defines becomes an underscore. Names of the kit, names that Rattle
makes (the goals and steps of a proof), strings, comments and the code of src/ stay as they are.
"""
import glob
import re
import sys

PART = r"[\w'₀-₉⊎≤≡]+"
NAME = re.compile(PART + r"(?:-" + PART + r")+")
TYPES = {"Drop-of-party-5": "DropOfParty5", "Operation-46": "Operation46", "One-clears": "OneClears"}
OWN_CRATES = "ber components facility line decode cases".split()


def split_comment(line, mark):
    at = line.find(mark)
    return (line, "") if at < 0 else (line[:at], line[at:])


def mark_of(path):
    return "//" if path.endswith(".rt") else "--"


def is_lemma_file(path):
    return re.match(r"crates/\w+/(specs|proofs)/\w+\.antt$", path) is not None


def imported(lines):
    """The names that a file takes from the kit."""
    names = set()
    for line in lines:
        found = re.match(r"\s*(?:pub )?(?:ghost )?use ([\w.]+)\.\{(.*)\}", line)
        if found and not any(found.group(1).startswith("Rattle." + crate) for crate in OWN_CRATES):
            names |= {item.strip().split(" as ")[-1] for item in found.group(2).split(",")}
            names |= {item.strip().split(" as ")[0] for item in found.group(2).split(",")}
    return names


def main():
    paths = sorted(p for p in glob.glob("crates/**/*", recursive=True) if p.endswith((".antt", ".rt")))
    texts = {p: open(p, encoding="utf8").read().split("\n") for p in paths}
    kit = set().union(*(imported(lines) for lines in texts.values()))
    own = set()
    for path, lines in texts.items():
        for line in lines:
            code = split_comment(line, mark_of(path))[0]
            if is_lemma_file(path):
                own |= {m.group(0) for m in NAME.finditer(code)}
            elif path.endswith(".antt"):  # a name that an answer binds for itself
                own |= set(re.findall(r"let (" + NAME.pattern + r")\b", code))
    own -= kit
    new = {name: TYPES.get(name, name.replace("-", "_")) for name in own}
    words = {}
    for path, lines in texts.items():
        for line in lines:
            for word in re.findall(r"[\w']+", split_comment(line, mark_of(path))[0] if path.endswith(".antt") else ""):
                words.setdefault(word, set()).add(path)
    for name in sorted(own):
        if new[name] in words:
            print("falls together?", name, new[name], *sorted(words[new[name]])[:4], file=sys.stderr)

    def respelled(code):
        return NAME.sub(lambda m: new.get(m.group(0), m.group(0)), code)

    for path, lines in texts.items():
        out = []
        for line in lines:
            code, comment = split_comment(line, mark_of(path))
            if path.endswith(".rt") and '"' in code:
                comment, code = code + comment, ""
            out.append(respelled(code) + comment)
        if out != lines:
            open(path, "w", encoding="utf8").write("\n".join(out))
    print(len(own), "names respelled")


if __name__ == "__main__":
    main()
