#!/usr/bin/env python3
"""Brings the repository's own definitions and lemmas to today's spelling: words in snake case, a dash only between two names.

usage: tools/respell.py [--dry]      once, at the top of the repository, after the kit's port.py

    setOf -> set_of, has-setOf -> has-set_of, by-test -> by_test

A name is respelled where it is the repository's: defined in the file, imported from a crate of this repository, or a field or a constructor of one
of its types. What std or the logic names keeps its spelling, and so do functions of src/, exported C names and strings. It says which names fall
together, and changes nothing then. Which old name became which new one is written to the file named by RESPELLED, where that is set.
"""
import collections
import glob
import os
import re
import sys

WORD = r"[^\s(){}.;,@\"«»\[\]\\|]+"
TOKEN = re.compile(r"--[^\n]*|//[^\n]*|\"(?:[^\"\\]|\\.)*\"|«[^»]*»|" + WORD)
SIGNED = re.compile(r"^\s*(?:\|\s*)?(?:abbrev |pub |unfoldable |data |record )*((?:" + WORD + r" )+?)(?:\{[^}]*\} |\([^)]*\) )*:(?: |$)", re.M)
CRATES = sorted(os.path.basename(p) for p in glob.glob("crates/*"))
# A name that falls together with another.
ALONE = {"endsOf": "ends_of_row"}
STD_NAMES = set("length get_or take drop set append map reverse replicate zero suc eqb ltb leb min max".split())


def read(path):
    with open(path, encoding="utf-8") as f:
        return f.read()


def is_own(module):
    return module.startswith("Rattle.") and module.split(".")[1] in CRATES


def imports(text):
    """Returns the names that a file imports from this repository, those that it imports from elsewhere, and the aliases of modules of ours."""
    own, other, alias = set(), set(), set()
    for m in re.finditer(r"^(?:ghost )?(?:pub )?use ([^\s;{]+?)(?:\.\{([^}]*)\}|\.([^\s.{}]+))?(?: as (\S+?))?;?$", text, re.M):
        module, many, one, name = m.groups()
        names = set()
        for it in (many or one or "").split(","):
            names.update(it.strip().split(" as "))
        names.discard("")
        (own if is_own(module + ".") else other).update(names)
        if name and is_own(module + "."):
            alias.add(name)
    return own, other, alias


def signed(text):
    names = set()
    code = re.sub(r"--[^\n]*", "", text)
    for m in SIGNED.finditer(code):
        names.update(m.group(1).split())
    for m in re.finditer(r"\blet ((?:" + WORD + r" )+?)[:=] ", code):
        names.add(m.group(1).split()[0])
    for m in re.finditer(r"[({]((?:" + WORD + r" )+):", code):
        names.update(m.group(1).split())
    for m in re.finditer(r"λ ((?:" + WORD + r" )*" + WORD + r")\.", code):
        names.update(m.group(1).split())
    return names


def snake(part):
    part = re.sub(r"([a-z0-9])([A-Z])(?=[a-z]|$|[^A-Z])", lambda m: m.group(1) + "_" + m.group(2).lower(), part)
    return part


def lowers(name):
    return name[:1].islower()


def respelt(name, functions):
    """Returns the name in today's spelling."""
    if not lowers(name) or not re.search(r"-|[a-z0-9][A-Z]", name):
        return name
    parts = [snake(p) if p[:1].islower() else p for p in name.split("-")]
    out, i = parts[0], 1
    # The longest run of parts on each side that is a name decides.
    for i in range(1, len(parts)):
        left = any("_".join(parts[k:i]) in functions for k in range(i)) or any(p in functions for p in [out.split("-")[-1]])
        right = any("_".join(parts[i:k]) in functions for k in range(i + 1, len(parts) + 1))
        out += ("-" if left and right and "_".join([out.split("-")[-1], parts[i]]) not in functions else "_") + parts[i]
    return out


def main():
    dry = "--dry" in sys.argv
    antt = sorted(glob.glob("crates/*/specs/**/*.antt", recursive=True)) + sorted(glob.glob("crates/*/proofs/**/*.antt", recursive=True))
    walks = [p for p in antt if os.path.basename(p) == "Proof.antt"]
    lemmas = [p for p in antt if p not in set(walks)]
    rts = sorted(glob.glob("crates/*/src/*.rt"))
    edits = sorted(glob.glob("crates/*/must-fail/*.edit"))

    # What our crates define for others: every name with a signature in a file of specs/ or proofs/.
    exported, functions = set(), set(STD_NAMES)
    for p in lemmas:
        t = read(p)
        exported |= signed_top(t)
        if "/specs/" in p:
            for m in re.finditer(r"^(?:abbrev|unfoldable) pub ([a-z]\S*)(?: \{[^}]*\})? :", t, re.M):
                functions.add(snake(m.group(1)).replace("-", "_"))
            for m in re.finditer(r"^unfoldable pub ◌(\w+)◌ :", t, re.M):
                functions.add(m.group(1))
    # A word that is a plain word of English more often than a definition joins nothing.
    functions -= set("next here then only each kind first second row rows named above below in_use least most other known stays ends one_at file order part".split())

    # Which definition of specs/ has which new name; a lemma that would have it gets _lem.
    defined = {respelt(n, functions): n for p in lemmas if "/specs/" in p for n in signed_top(read(p)) if lowers(n)}
    became = {}
    together = []

    def new(name):
        if name not in became:
            it = ALONE.get(name) or respelt(name, functions)
            plain = it.replace("-", "_")
            became[name] = plain + "_lem" if defined.get(plain, name) != name else it
        return became[name]

    changed = {}
    for p in antt + rts:
        t = read(p)
        own, other, alias = imports(t)
        walk = os.path.basename(p) == "Proof.antt"
        local = set() if walk or p.endswith(".rt") else signed(t)
        fields = exported
        used = collections.defaultdict(set)

        def turn(m):
            w = m.group(0)
            if w.startswith(("--", "//", '"', "«")):
                return w
            before = t[m.start() - 1] if m.start() else ""
            if before == ".":
                head = re.search(r"(" + WORD + r")\.$", t[: m.start()])
                if walk and head and head.group(1) in ("tie", "callee", "stated", "code", "part", "this"):
                    return w
                ours = w in exported
                if w in other and w not in own:
                    ours = False
            else:
                ours = w in own or (w in local and w not in other) or (p.endswith(".rt") and w in own)
            if not ours:
                return w
            n = new(w)
            used[n].add(w)
            return n

        t2 = TOKEN.sub(turn, t)
        for n, olds in used.items():
            if len(olds) > 1:
                together.append((p, n, olds))
        # A new name that stood in the file before, for something else.
        tokens = {m.group(0) for m in TOKEN.finditer(re.sub(r"^use .*$", "", t, flags=re.M))}
        for n, olds in used.items():
            if n not in olds and n in tokens and new(n) == n and len(olds) == 1 and (n in local or n in other or n in own):
                together.append((p, n, olds | {n + " (as it stood)"}))
        if t2 != t:
            changed[p] = t2
    for p in edits:
        t = read(p)
        lines = []
        for line in t.splitlines(keepends=True):
            if line.startswith(("old:", "new:")):
                line = TOKEN.sub(lambda m: new(m.group(0)) if m.group(0) in exported and not m.group(0).startswith(("--", "//", '"', "«")) else m.group(0), line)
            lines.append(line)
        t2 = "".join(lines)
        if t2 != t:
            changed[p] = t2
    for p, n, olds in together:
        print(f"together: {p}: {n} of {sorted(olds)}")
    turned = {a: b for a, b in became.items() if a != b}
    print(f"respell: {len(turned)} names, {len(changed)} files, {len(together)} that fall together")
    if os.environ.get("RESPELLED"):
        with open(os.environ["RESPELLED"], "w", encoding="utf-8") as f:
            for a in sorted(turned):
                f.write(f"{a} {turned[a]}\n")
    if together or dry:
        raise SystemExit(1 if together else 0)
    for p, t in changed.items():
        with open(p, "w", encoding="utf-8") as f:
            f.write(t)


def signed_top(text):
    names = set()
    code = re.sub(r"--[^\n]*", "", text)
    for m in SIGNED.finditer(code):
        names.update(m.group(1).split())
    return names


if __name__ == "__main__":
    main()
