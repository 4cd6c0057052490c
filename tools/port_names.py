#!/usr/bin/env python3
"""Brings the repository's own definitions and lemmas to snake case, once, after the toolchain's port.py: `bytesOf` and `le-append` become
`bytes_of` and `le_append`. Run at the top of the repository. Names of src/, of the library, of generated modules and of types stay.

What would fall together with another name of the repository gets the name that APART gives it.
"""
import collections
import os
import re
import sys

# Two own names that snake case would make one, and stand in one scope or could be taken for one another: the second keeps apart.
APART = {
    "absent-row": "absent_row_law",
    "as_step": "as_a_step",
    "asked-back": "asked_back_law",
    "code_read": "code_is_read",
    "compare-of": "compare_of_law",
    "count-width": "count_width_law",
    "digit-of": "digit_of_law",
    "element-back": "element_back_law",
    "entry-back": "entry_back_law",
    "fed-back": "fed_back_law",
    "found-row": "found_row_law",
    "id-width": "id_width_law",
    "in_order": "in_order_law",
    "is_known": "is_known_law",
    "is-there": "is_there_law",
    "leading-dot": "leading_dot_law",
    "list-checks": "list_checks_law",
    "listing-back": "listing_back_law",
    "lookup-back": "lookup_back_law",
    "lookups-back": "lookups_back_law",
    "names-left": "names_stay",
    "offset-width": "offset_width_law",
    "one_more": "one_more_law",
    "own-length": "own_length_law",
    "read_back": "read_back_law",
    "reading-back": "reading_back_law",
    "some-digits": "some_digits_law",
    "state-back": "state_back_law",
    "too-deep": "too_deep_law",
    "verdict-back": "verdict_back_law",
    "words_back": "words_back_law",
    "words-in": "words_in_law",
    "written_back": "written_back_law",
}
DECLARED = re.compile(
    r"^\s*(?:(?:pub|abbrev|unfoldable|opaque|private|irreducible|instance|macro|tactic)\s+)*"
    r"([^\s(){}\[\],;.:=]+(?:\s+[^\s(){}\[\],;.:=]+)*)\s*(?:\{[^}]*\}\s*|\([^)]*\)\s*)*:\s"
)
USE = re.compile(r"^\s*(?:ghost |pub |unfoldable )*use\s+([^\s{;]+?)\.\{([^}]*)\}", re.M)
ALIAS = re.compile(r"^\s*(?:ghost |pub |unfoldable )*use\s+([^\s{;]+)\s+as\s+(\S+?);?\s*$", re.M)
TOKEN = re.compile(r"[^\s(){}\[\],;.`\"]+")
KEYWORDS = {"let", "in", "where", "module", "use", "unfolding", "pub", "record", "data", "--", "syntax", "infix", "infixl", "infixr"}


def snake(name):
    name = name.replace("-", "_")
    return re.sub(r"(?<=[a-z0-9])([A-Z])", lambda m: "_" + m.group(1).lower(), name)


def files(endings):
    for folder, folders, names in os.walk("crates"):
        folders[:] = sorted(it for it in folders if it != "out")
        for name in sorted(names):
            if name.endswith(endings):
                yield os.path.join(folder, name)


def read(path):
    with open(path, encoding="utf-8") as f:
        return f.read()


def declared():
    own = collections.defaultdict(set)
    for path in files((".antt",)):
        for line in read(path).splitlines():
            if line.strip().startswith("--"):
                continue
            m = DECLARED.match(line)
            words = m.group(1).split() if m else []
            if words and not KEYWORDS & set(words):
                for word in words:
                    own[word].add(path)
    return own


def old(word):
    bare = word.strip("◌")
    if not re.match(r"[a-z]", bare) or "-Inv-" in word or "--" in word:
        return False
    return word in APART or snake(word) != word


def names():
    own = declared()
    # A name that the text already has in snake case, by port.py, while its declaration is an operator's, is one with it.
    mapped = {word: APART.get(word, snake(word)) for word in own if old(word)}
    for word in list(mapped):
        if word.startswith("◌") and word.endswith("◌"):
            mapped[word.strip("◌")] = mapped[word].strip("◌")
    taken = collections.defaultdict(set)
    for word in own:
        taken[mapped.get(word, word)].add(word)
    fallen = {new: words for new, words in taken.items() if len(words) > 1}
    return mapped, fallen, own


def is_own(module, crates):
    m = re.match(r"Rattle\.(\w+)\.", module + ".")
    return bool(m) and m.group(1) in crates


def foreign(text, crates):
    """The words that a file imports from the library, and the short names of modules that are not the repository's own text."""
    words, aliases = set(), set()
    for module, names_ in USE.findall(text):
        if not is_own(module, crates):
            words |= {it.strip().split(" as ")[0] for it in names_.split(",")}
    for module, alias in ALIAS.findall(text):
        if not is_own(module, crates) or re.search(r"\.(Statement|Tie|Goals|Given|Lts|Code)$", module):
            aliases.add(alias)
    return words, aliases


def line_turned(line, mapped, keep, aliases, ghost, fields):
    comment = line.find("-- ") if not ghost else -1
    if line.strip().startswith("--"):
        comment = 0
    out, last = [], 0
    for m in TOKEN.finditer(line):
        word = m.group()
        new = mapped.get(word)
        if new is None or word in keep:
            continue
        in_comment = comment >= 0 and m.start() >= comment
        ticked = line[m.start() - 1 : m.start()] == "`" and line[m.end() : m.end() + 1] == "`"
        if in_comment and not ticked and "-" in word:
            continue
        if not in_comment and line[m.start() - 1 : m.start()] == "." and m.start() > 0:
            before = re.search(r"([^\s(){}\[\],;]+)\.$", line[: m.start()])
            head = before.group(1) if before else ""
            if head in aliases:
                continue
            path = head.startswith("Rattle.") or (head and re.match(r"[A-Za-z]\w*$", head) and head in line_turned.own_aliases)
            if not path and word not in fields:
                continue
        out.append(line[last : m.start()] + new)
        last = m.end()
    return "".join(out) + line[last:]


def record_fields():
    found = set()
    for path in files((".antt",)):
        inside = False
        for line in read(path).splitlines():
            if re.match(r"^\s*(?:pub\s+|abbrev\s+)*record\s", line):
                inside = True
            elif line.strip() and not line.startswith(" "):
                inside = False
            elif inside:
                m = re.match(r"^\s+(?:pub\s+)?([^\s:]+)\s*:", line)
                if m:
                    found.add(m.group(1))
    return found


def main():
    crates = set(os.listdir("crates"))
    mapped, fallen, own = names()
    fields = record_fields()
    changed = 0
    for path in files((".antt", ".rt", ".edit")):
        text = read(path)
        keep, aliases = foreign(text, crates)
        keep -= {it for it in keep if path in own.get(it, ())}
        line_turned.own_aliases = {a for m, a in ALIAS.findall(text) if a not in aliases}
        lines = []
        inside = 0  # a clause of a .rt file that goes on
        for line in text.split("\n"):
            if path.endswith(".antt"):
                lines.append(line_turned(line, mapped, keep, aliases, False, fields))
                continue
            start = re.match(r"\s*(ghost |requires\b|ensures\b|#!?\[tactic|decreases\b|invariant\b)", line)
            use = mapped if start or inside or path.endswith(".edit") else {w: n for w, n in mapped.items() if "-" not in w and w not in APART}
            if path.endswith(".edit"):
                use = {w: n for w, n in mapped.items() if re.search("[A-Z]", w)}
            if start or inside:
                inside = max(0, inside + line.count("{") - line.count("}"))
            lines.append(line_turned(line, use, keep, aliases, True, fields))
        new = "\n".join(lines)
        if new != text:
            with open(path, "w", encoding="utf-8") as f:
                f.write(new)
            changed += 1
    print(f"{len(mapped)} names, {changed} files")
    for new, words in sorted(fallen.items()):
        where = sorted({it for w in words for it in own[w]})
        print("falls together:", new, sorted(words), where)
    return 0


if __name__ == "__main__":
    sys.exit(main())
