#!/usr/bin/env python3
"""Respells the repository's own names in specs/, proofs/ and the clauses of src/: words in snake case
(sum_assoc), types, records and facts in camel case (LawfulPick). Run once, at the top, after port.py.
With --list it only prints the names and what they become."""
import collections
import pathlib
import re
import sys

TOP = pathlib.Path(__file__).resolve().parent.parent
# a name of antt: anything but spaces, brackets, quotes and the punctuation of terms
NAME = r"[^\s(){}\[\],;.:λ⌜⌝«»\"@¬⊖𝟘]+"
TOKEN = re.compile(NAME)
ASIDE = re.compile(r"--.*|//.*")


def antt_files():
    for crate in sorted((TOP / "crates").iterdir()):
        for part in ("specs", "proofs"):
            yield from sorted((crate / part).rglob("*.antt"))


def src_files():
    for crate in sorted((TOP / "crates").iterdir()):
        yield from sorted((crate / "src").rglob("*.rt"))


def generated(path):
    return path.name in ("Answers.antt", "Invariants.antt", "Proof.antt")


def declared(text):
    """Names that a file defines: signatures, fields, constructors, parameters of a module or a record."""
    names = set()
    for line in text.split("\n"):
        line = ASIDE.sub("", line)
        if line.startswith("use ") or "ghost use" in line:
            continue
        for m in re.finditer(r"(?:^|[({|;]|\bλ|\bpub|\babbrev|\bunfoldable|\brecord|\bdata|\blet|\bin)\s*((?:" + NAME + r"\s+)*" + NAME + r")\s*:(?!:)", line):
            for name in m.group(1).split():
                names.add(name)
        for m in re.finditer(r"\b(?:record|data)\s+(?:pub\s+)?(" + NAME + ")", line):
            names.add(m.group(1))
        for m in re.finditer(r"\blet\s+(" + NAME + r")\s*=", line):
            names.add(m.group(1))
        for m in re.finditer(r"\sas\s(" + NAME + ")", line):
            names.add(m.group(1))
    return names


def camel(name):
    return "".join(part[:1].upper() + part[1:] for part in re.split(r"[-_]", name))


def respelled(name):
    if name[0].isupper():
        return camel(name)
    return name.replace("-", "_")


# words of a goal's name that are one word now
WORDS = ["overflow-add", "overflow-sub", "overflow-mul", "overflow-cast", "slice-bounds", "offset-bounds", "in-ok", "in-err",
         "in-default", "invariant-of", "as-mut-slice", "as-slice", "copy-from-slice", "saturating-sub", "is-some"]


def source_names():
    """Functions and variables of src/ whose names have underscores: goals spell them so, and no longer with dashes."""
    names = set()
    for path in src_files():
        for name in re.findall(r"\b[a-z]+(?:_[a-z]+)+\b", path.read_text()):
            names.add(name)
    return sorted(names | {w.replace("-", "_") for w in WORDS}, key=len, reverse=True)


def goal_named(token, names):
    for name in names:
        token = re.sub(r"(?<![a-z])" + name.replace("_", "-") + r"(?![a-z])", name, token)
    return token


def main():
    own, where = set(), collections.defaultdict(set)
    tokens = collections.defaultdict(set)
    foreign = set()
    for path in antt_files():
        text = path.read_text()
        for m in re.finditer(r"use\s+(Rattle\.std|borrow|base|native|mathlib|lib)\S*\.\{([^}]*)\}", text):
            for item in m.group(2).split(","):
                foreign.add(item.split(" as ")[0].strip())
        for token in TOKEN.findall(ASIDE.sub("", text)):
            tokens[token].add(path)
        if generated(path):
            # goals keep their names; lemmas beside them are the repository's
            goals = set(re.findall(r"goal\.(" + NAME + ")", text))
            names = declared(text) - goals
        else:
            names = declared(text)
        for name in names:
            if "-" in name.strip("-") and re.match(r"[A-Za-z]", name):
                own.add(name)
                where[name].add(str(path.relative_to(TOP)))
    own.add("Is-determinant")  # Determined, under another name where it is imported
    mapping = {n: respelled(n) for n in own if respelled(n) != n}
    mapping["back-row"] = "back_row_lem"  # the code has a function back_row
    clash = {n: t for n, t in mapping.items() if t in tokens and t not in own}
    doubled = [t for t, c in collections.Counter(mapping.values()).items() if c > 1]
    also_foreign = sorted(n for n in mapping if n in foreign)
    if "--list" in sys.argv:
        for n in sorted(mapping):
            print(n, mapping[n], *sorted(where[n])[:2])
        print("fall together:", doubled)
        print("already a name:", sorted(clash.items()))
        print("of a library too:", also_foreign)
        dashed = sorted(t for t in tokens if re.match(r"[A-Za-z].*-[A-Za-z]", t) and t not in mapping and t not in foreign)
        print("left:", dashed)
        return
    names = source_names()
    for path in list(antt_files()) + list(src_files()):
        text = path.read_text()
        out = []
        for line in text.split("\n"):
            code = line
            tail = ""
            m = ASIDE.search(line)
            if m and path.suffix == ".antt":
                code, tail = line[:m.start()], line[m.start():]
            elif m and line.lstrip().startswith("//"):
                code, tail = "", line
            # a step of a proof, c.NAME, is named after the code
            def new_name(t):
                step = code[max(0, t.start() - 3):t.start()].endswith((" c.", "(c.", "{c."))
                name = t.group() if step else mapping.get(t.group(), t.group())
                own_step = name == t.group() and generated(path) and "-" in name and name not in foreign
                return goal_named(name, names) if own_step else name

            out.append(TOKEN.sub(new_name, code) + tail)
        new = "\n".join(out)
        if new != text:
            path.write_text(new)


main()
