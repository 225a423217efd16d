#!/usr/bin/env python3
"""Brings the repository's own names to the spelling of today's Rattle, after the kit's port.py, which respells those that a library shares.

usage: python3 tools/respell.py [FOLDER]      once, at the top of the repository (or of FOLDER)

- Definitions, record fields and constructors are words in snake case: `nextPc` becomes `next_pc`, a field `no-reset` becomes `no_reset`.
- A lemma's name joins words by dashes: its words are in snake case, and the dashes stay. port.py took some of our lemmas for words of a
  library and joined them by underscores (each_stands): they get their names back (each-stands), as README and docs/ have them.
Functions, parameters, fields and types of src/ keep their names. It stops, and writes nothing, where two names would fall together.
"""
import collections
import pathlib
import re
import sys

TOKEN = re.compile(r"(?<![A-Za-z0-9_])[A-Za-z_][A-Za-z0-9_'₀]*(?:-[A-Za-z0-9_'₀]+)*")
SIGNED = re.compile(r"^( *)((?:(?:abbrev|unfoldable|pub|data|record) )*)([^\s:(){};,.=λ]+) (?::|\()")
# Fields of a record in a proof that would fall together with a definition.
FIELDS = {"program-allowed": "program_sized", "outside-allowed": "outside_sized", "ram-allowed": "ram_sized"}
# Lemmas of ours that port.py gave underscores.
LEMMAS = """add-at all-hold at-front at-table by-code by-ones by-turn bytes-back carried-gives copied-all copied-more count-law each-stands
each-step ends-last fetch-spec first-byte first-count first-taken from-start given-by goes-on goes-one in-size in-step is-carried keep-spec
left-is lent-gives listed-at no-bytes no-second none-before none-of-four none-yet not-entered not-low once-more one-again one-each one-left
one-more one-number one-of-three or-right other-length over-none past-end replicate-more reset-runs run-out run-short run-spec run-step
runs-after runs-seen same-length same-read same-way shows-nothing stands-one step-spec step-through the-call too-far too-large too-long
too-short too-small two-bytes waits-in with-second write-read written-back turned-plain""".split()


def snake(word):
    """`movp3Address` -> `movp3_address`, `withAC` -> `with_ac`; a dash stays."""
    return re.sub(r"(?<=[a-z0-9])([A-Z]+)", lambda m: "_" + m.group(1).lower(), word)


def signatures(text):
    """Each name that the file declares, as (name, kind)."""
    block = None
    for line in text.split("\n"):
        if not line.strip() or line.lstrip().startswith("--"):
            continue
        indent = len(line) - len(line.lstrip())
        if block is not None and indent <= block:
            block = None
        m = SIGNED.match(line)
        head = re.match(r"^ *(?:pub )?(?:data|record) ", line)
        if head and line.rstrip().endswith("where"):
            block = indent
        elif m and not head:
            words = m.group(2).split()
            inside = block is not None and indent == block + 2
            yield m.group(3), "word" if inside or "abbrev" in words or "unfoldable" in words else "lemma"


def main():
    root = pathlib.Path(sys.argv[1] if len(sys.argv) > 1 else ".")
    antt = sorted(p for p in root.glob("crates/*/*/**/*.antt") if "out" not in p.parts)
    rust = sorted(p for p in root.glob("crates/*/src/**/*.rt"))
    edits = sorted(root.glob("crates/*/must-fail/*.edit"))
    pages = sorted([*root.glob("*.md"), *root.glob("docs/*.md")])
    texts = {p: p.read_text(encoding="utf-8") for p in [*antt, *rust, *edits, *pages]}

    kinds = collections.defaultdict(set)
    for p in antt:
        for name, kind in signatures(texts[p]):
            kinds[name].add(kind)
    to = {}
    for name, has in kinds.items():
        if name[0].isupper():
            continue
        new = snake(name)
        if has == {"word"}:
            new = new.replace("-", "_")
        to[name] = new
    for name in LEMMAS:
        under = name.replace("-", "_")
        if kinds.get(under) == {"lemma"}:
            to[under] = name
    to.update(FIELDS)
    to = {a: b for a, b in to.items() if a != b}

    # No new name may stand already for something else in a file that has the old one. A function of src/ is nothing that a clause can name.
    faults = []
    for p in [*antt, *rust]:
        bare = re.sub(r"--.*|//.*|\bfn \w+|Rattle\.[\w.+-]*(?=\.\{)|Rattle\.[\w.+-]* as", " ", texts[p])
        if p.suffix == ".rt":
            bare = re.sub(r"\b\w+(?=\()", " ", bare)
        said = set(TOKEN.findall(bare))
        for a in said & set(to):
            if to[a] in said and to.get(to[a], to[a]) == to[a]:
                faults.append(f"{p}: {a} would become {to[a]}, which stands there already")
    falling = collections.defaultdict(list)
    for a in set(kinds):
        falling[to.get(a, a)].append(a)
    faults += [f"{b}: {sorted(a)} fall together" for b, a in falling.items() if len(a) > 1]

    def renamed(text):
        return TOKEN.sub(lambda m: to.get(m.group(0), snake(m.group(0)) if m.group(0)[0].islower() else m.group(0)), text)

    def in_backticks(text):
        return re.sub(r"`[^`\n]+`", lambda m: renamed(m.group(0)), text)

    def of_antt(text):
        return "\n".join(in_backticks(l) if l.lstrip().startswith("--") else renamed(l) for l in text.split("\n"))

    # In clauses, edits and pages a dash may be a minus or a hyphen, and a name may still be spelt as it was before port.py.
    new_names = {to.get(a, a) for a in kinds}

    def in_clauses(text):
        def one(m):
            word = m.group(0)
            turned = snake(word)
            return turned if turned != word and word[0].islower() and turned in new_names else word

        return TOKEN.sub(one, text)

    def in_page(text):
        dashed = re.sub(r"`[^`\n]+`", lambda m: TOKEN.sub(lambda w: to.get(w.group(0), w.group(0)) if "-" in w.group(0) else w.group(0), m.group(0)), text)
        return in_clauses(dashed)

    if faults:
        raise SystemExit("\n".join([*sorted(set(faults)), "respell: nothing was written"]))
    for p, text in texts.items():
        if p in set(antt):
            new = of_antt(text)
        elif p.suffix == ".md":
            new = in_page(text)
        else:
            new = in_clauses(text)
        if new != text:
            p.write_text(new, encoding="utf-8")
    print(f"respell: {len(to)} names")


main()
