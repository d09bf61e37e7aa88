#!/usr/bin/env python3
"""Respells the project's own definitions and lemmas: words in snake case, a dash only where it joins two names.

usage: tools/respell.py [--dry]   at the top of the repository, once, right after the toolchain's port.py (docs/PORT.md)

What a name is called is decided by where it is declared (specs/ and the lemma files of proofs/); it is then written alike in contracts, proofs,
must-fail edits, and between backticks in the pages. Names in capitals are the documents' own signs (F, S, MDSL) and stay.
"""
import collections
import glob
import re
import sys

TOKEN = r"[^\s(){}\[\].,;:\"«»`=@]+"
DECLARED = re.compile(r"^\s*((?:abbrev|unfoldable|pub|data|record)\s+)*(" + TOKEN + r")\s*:\s")
# what a dash may join to a name that stands in the lemma's statement: the library's names for signs
SIGNS = set("append cons nil".split())
BY_HAND = {
    # two definitions that would fall together
    "take-up": "taken_up_again", "only-first": "is_only_first", "only-second": "is_only_second", "other-contents": "is_other_contents",
    "key-length": "key_length_lem",
    "passes": "Passes", "Quad·s": "QuadS", "Quad·e": "QuadE", "Cells·part": "cells_part", "Hex·byte": "hex_byte",
    "Hex·value": "hex_value", "Range·within": "range_within",
}


def snake(name):
    if not name[0].islower():
        return name.replace("·", "_")
    name = name.replace("getD", "get_or").replace("fromBP", "from_bp").replace("fromBRL", "from_brl")
    out = re.sub(r"(?<=[a-z0-9])([A-Z])", lambda m: "_" + m.group(1).lower(), name)
    return out.replace("·", "_")


def is_camel(name):
    return re.match(r"[a-z]\w*[A-Z]", name) is not None


def main():
    dry = "--dry" in sys.argv
    lemma_files = [f for f in glob.glob("crates/*/proofs/**/*.antt", recursive=True) if not f.endswith("/Proof.antt")]
    specs = glob.glob("crates/*/specs/**/*.antt", recursive=True)
    defined, fields, declared = set(), set(), collections.defaultdict(set)
    says = collections.defaultdict(set)
    for path in specs + lemma_files:
        inside, current = None, None
        for line in open(path):
            indent = len(line) - len(line.lstrip())
            if inside is not None and line.strip() and indent <= inside:
                inside = None
            m = DECLARED.match(line)
            if m:
                current = m.group(2)
            elif current is not None and (not line.strip() or re.match(r"\s*(unfolding\b|" + re.escape(current) + r"(\s|$))", line)):
                current = None
            if current is not None:
                says[current] |= {snake(t) for t in re.findall(TOKEN, line.split(" : ", 1)[-1])}
            if m:
                declared[m.group(2)].add(path)
                words = m.group(1) or ""
                if inside is not None:
                    fields.add(m.group(2))
                if re.match(r"\s*(abbrev|unfoldable)", line):
                    defined.add(m.group(2))
            if re.match(r"\s*(pub\s+)?(record|data)\b.*\bwhere\s*$", line):
                inside = indent
    def dashed(name):
        if name in fields:
            return snake(name).replace("-", "_")
        parts = [snake(p) for p in name.split("-")]
        out, start = parts[0], 0
        for i in range(1, len(parts)):
            left = {"_".join(parts[j:i]) for j in range(start, i)}
            right = {"_".join(parts[i:j]) for j in range(i + 1, len(parts) + 1)}
            if left & says[name] and right & (says[name] | SIGNS):
                out, start = out + "-" + parts[i], i
            else:
                out += "_" + parts[i]
        return out

    renamed = {}
    for name in declared:
        if name in BY_HAND:
            renamed[name] = BY_HAND[name]
        elif "-" in name or "·" in name or is_camel(name):
            if name.startswith("◌"):
                continue
            renamed[name] = dashed(name)
    renamed.update(BY_HAND)
    renamed = {a: b for a, b in renamed.items() if a != b}
    # what would fall together in one name: the lemma is told from the function that it is about
    # such a lemma whose name was in snake case before may be called as a function of src/: it is renamed only where it is declared or imported
    plain = set()
    back = collections.defaultdict(list)
    for name in declared:
        back[renamed.get(name, name)].append(name)
    for new, olds in sorted(back.items()):
        if len(olds) > 1:
            for old in olds:
                if old not in defined and old not in fields and old in renamed:
                    renamed[old] = new + "_lem"
                elif old not in defined and old not in fields:
                    plain.add(old)
    back = collections.defaultdict(set)
    for name in declared:
        back[renamed.get(name, name)].add(name)
    for new, olds in sorted(back.items()):
        if len(olds) > 1 and not olds & plain:
            print("falls together:", new, sorted(olds))

    # a field of a record that the check makes is called as the variable, with -is: such a name is ours only after .ensures. and in a record that is written out
    made = {n for n in renamed if n.endswith("-is") and n in fields}

    token = re.compile(TOKEN)

    def in_antt(text, local=()):
        def one(m):
            name = m.group(0)
            if name not in renamed or name in local:
                return name
            if local and name in made:
                before, after = text[:m.start()], text[m.end():]
                if not (before.endswith(".ensures.") or re.match(r"\s=\s", after)):
                    return name
            return renamed[name]
        return token.sub(one, text)

    def by_port(m):
        """A name that the toolchain's script respelled already stands in the pages as it was."""
        name = m.group(0)
        new = snake(name).replace("-", "_")
        return new if name not in declared and new in declared else renamed.get(name, name)

    def in_words(text):
        return re.sub(r"`([^`\n]+)`", lambda m: "`" + token.sub(by_port, m.group(1)) + "`", text)

    def in_comment(text):
        text = in_words(text)
        return token.sub(lambda m: renamed.get(m.group(0), m.group(0)) if is_camel(m.group(0)) or "·" in m.group(0) else m.group(0), text)

    def line_of(line, mark, local=()):
        at = re.search(r"(?:^|\s)" + re.escape(mark), line)
        if at is None:
            return in_antt(line, local)
        return in_antt(line[:at.start()], local) + in_comment(line[at.start():])

    def antt_file(text, path):
        local = ()
        if path.endswith("/Proof.antt"):
            local = {m.group(2) for m in map(DECLARED.match, text.split("\n")) if m and not m.string.startswith(" ")} | {"\0"}
        for name in plain:
            if path in declared[name] or re.search(r"^use Rattle\.\w+\.proofs\.[A-Z]\w*\.\{[^}]*(?<![\w-])" + name + r"(?![\w-])", text, re.M):
                text = re.sub(r"(?<![\w.-])" + name + r"(?![\w-])", name + "_lem", text)
        return "\n".join(line_of(line, "--", local) for line in text.split("\n"))

    def rt_file(text):
        out = []
        for line in text.split("\n"):
            out.append(line_of(line, "//"))
        return "\n".join(out)

    def edit_file(text):
        return "\n".join(in_antt(line) if re.match(r"(old|new):", line) else line for line in text.split("\n"))

    changed = 0
    warned = 0
    work = [(f, antt_file) for f in specs + glob.glob("crates/*/proofs/**/*.antt", recursive=True)]
    work += [(f, lambda t, p: rt_file(t)) for f in glob.glob("crates/*/src/**/*.rt", recursive=True)]
    work += [(f, lambda t, p: edit_file(t)) for f in glob.glob("crates/*/must-fail/*.edit")]
    work += [(f, lambda t, p: in_words(t)) for f in glob.glob("docs/**/*.md", recursive=True) + ["README.md"]]
    for path, turn in work:
        text = open(path).read()
        new = turn(text, path)
        if new != text:
            changed += 1
            old_tokens, new_tokens = set(token.findall(text)), set(token.findall(new))
            for a in old_tokens:
                b = renamed.get(a)
                if b and b in old_tokens and path.endswith((".antt", ".rt")):
                    warned += 1
                    print("meets:", path, a, "->", b)
            if not dry:
                open(path, "w").write(new)
    print(len(renamed), "names,", changed, "files,", warned, "meetings")
    if dry:
        for a, b in sorted(renamed.items()):
            print("   ", a, b)


main()
