#!/usr/bin/env python3
"""Brings the repository's own definitions and lemmas to today's spelling, once, after the toolchain's port.py: words in snake case, types
in camel case, a dash only between two names that a lemma joins, and one prime. It goes by words: a word that is declared in specs/ or
proofs/ is respelled wherever it stands in .antt files and in the clauses of .rt files, and between backticks in the pages.

usage: tools/respell.py [--list]     at the top of the repository; --list prints the old and the new names and writes nothing
"""
import os
import re
import sys

# names that a lemma may join by a dash: functions of the library, and the words for operators
JOINED = set("length append take drop map set sets get put get_or zero one suc add mul sub div mod le lt eq eqb ltb leb cond not and or false true min max sum reverse filter mem all concat index".split())
# words that fall together with another, and what they are called instead
OTHER = {
    "at-iopb": "at_iopb_lem",
    "bad-in": "bad_in_lem",
    "by-picks": "by_picks_lem",
    "bytes-in": "bytes_in_lem",
    "copied-out": "copied_out_lem",
    "look-number": "look_number_lem",
    "look-part": "look_part_lem",
    "looked-part": "looked_part_lem",
    "no-command": "no_command_lem",
    "no-deck": "no_deck_lem",
    "on-drive": "on_drive_lem",
    "one-pick": "one_pick_lem",
    "open-drive": "open_drive_lem",
    "pick-table": "pick_table_lem",
    "pieces-at": "pieces_at_lem",
    "run-as-written": "run_as_written_lem",
    "run-by-picks": "run_by_picks_lem",
    "run-number": "run_number_lem",
    "sectors-of": "sectors_of_lem",
    "status-bytes": "status_bytes_lem",
    "on-disk": "on_disk_place",
    "in-memory": "in_memory_place",
    "code-of": "own_code",
}
SIG = re.compile(r"^(\s*)((?:pattern |unfoldable |abbrev |pub |axiom |data |record |mutual )*)([^\s(){}.;,@\"«»]+)((?:\s+\{[^}]*\}|\s+\([^)]*\))*) : ")
WORD = re.compile(r"[^\s(){}.;,@\"«»\[\]`]+")
USE = re.compile(r"^\s*(?:ghost )?use ([\w.·+-]+?)(?:\.\{([^}]*)\}| as (\S+))?;?\s*$")
MADE = re.compile(r"^(invariant|decreases|returns|Need|ghost)(-|$)|^Tie$|^tie$")


# words that port.py had respelled to what a definition is called now, by file
HERE = {
    "crates/promises/specs/AsBefore.antt": {"as_written": "as_written_lem"},
    "crates/promises/proofs/AsBefore.antt": {"as_written": "as_written_lem"},
    "crates/promises/specs/OneReply.antt": {"chain_steps": "chain_steps_lem"},
    "crates/promises/proofs/OneReply.antt": {"chain_steps": "chain_steps_lem"},
    "crates/deck/proofs/Bounds.antt": {"chain_steps": "chain_steps_lem"},
    "crates/chain/proofs/Coding.antt": {"plain_rows": "plain_rows_lem"},
    "crates/command/proofs/Data.antt": {"no_room": "no_room_lem"},
    "crates/firmware/proofs/table/rosadenca_run_written/Proof.antt": {"as_written": "as_written_lem"},
}


def files(root, ends):
    for folder, dirs, names in os.walk(os.path.join(root, "crates")):
        dirs[:] = sorted(d for d in dirs if d != "out")
        for name in sorted(names):
            if name.endswith(ends):
                yield os.path.join(folder, name)


def read(path):
    with open(path, encoding="utf-8") as f:
        return f.read()


def new_name(word, in_specs):
    if word in OTHER:
        return OTHER[word]
    word = word.replace("\u2032", "'")
    if word[0].isupper():
        head, dash, rest = word.partition("-")
        return head + dash + snake(rest, in_specs) if dash else word
    return snake(word, in_specs)


def snake(word, in_specs):
    parts = [re.sub(r"(?<=[a-z0-9])([A-Z])", lambda m: "_" + m.group(1).lower(), p) for p in word.split("-")]
    out = parts[0]
    for p in parts[1:]:
        left, right = out.split("_")[-1].split("-")[-1], p.split("_")[0]
        keep = not in_specs and left in JOINED and right in JOINED
        out += ("-" if keep else "_") + p
    return out


def main():
    root = "."
    own = set(os.listdir(os.path.join(root, "crates")))
    declared, foreign, used = {}, set(), set()
    for path in files(root, (".antt",)):
        in_specs = "/specs/" in path
        lemma = not in_specs and os.path.basename(os.path.dirname(path)) == "proofs"
        for line in read(path).split("\n"):
            m = USE.match(line)
            if m:
                parts = m.group(1).split(".")
                ours = parts[0] == "Rattle" and len(parts) > 1 and parts[1] in own and "declared" not in parts and "Tie" not in parts and "Statement" not in parts
                if not ours and m.group(2):
                    for w in m.group(2).split(","):
                        for x in w.split(" as "):
                            foreign.add(x.strip())
                continue
            if line.lstrip().startswith("--"):
                continue
            used.update(WORD.findall(line))
            m = SIG.match(line)
            if m and (in_specs or lemma or re.match(r"[a-z]\w*[A-Z]", m.group(3))):
                declared[m.group(3)] = declared.get(m.group(3), False) or in_specs
    names = {}
    for word, in_specs in declared.items():
        if word in foreign or MADE.match(word) or "\u25cc" in word:
            continue
        to = new_name(word, in_specs)
        if to != word:
            names[word] = to
    # names that would fall together
    back = {}
    for word, to in sorted(names.items()):
        back.setdefault(to, []).append(word)
    for to, words in sorted(back.items()):
        if len(words) > 1 or (to in used or to in declared or to in foreign) and to not in names:
            print(f"look: {' '.join(words)} -> {to}, which {'stands already' if to in used or to in declared else 'falls together'}", file=sys.stderr)
    if "--list" in sys.argv:
        for word, to in sorted(names.items()):
            print(word, to)
        return
    def respell(text):
        return WORD.sub(lambda m: names.get(m.group(0), m.group(0)), text)
    for path in files(root, (".antt",)):
        text = read(path)
        here = HERE.get(os.path.normpath(path), {})
        new = respell(WORD.sub(lambda m: here.get(m.group(0), m.group(0)), text))
        if new != text:
            open(path, "w", encoding="utf-8").write(new)
    clause = re.compile(r"^\s*(ghost use|requires|ensures|ghost|decreases|#\[tactic|//)")
    for path in files(root, (".rt",)):
        text = read(path)
        new, inside = [], False
        for line in text.split("\n"):
            if clause.match(line):
                inside = True
            new.append(respell(line) if inside else line)
            if inside and (line.rstrip().endswith(("}", ";", "]")) or line.lstrip().startswith("//")):
                inside = False
        new = "\n".join(new)
        if new != text:
            open(path, "w", encoding="utf-8").write(new)
    pages = [os.path.join(root, "README.md")]
    for folder, _, them in os.walk(os.path.join(root, "docs")):
        pages += [os.path.join(folder, f) for f in sorted(them) if f.endswith(".md")]
    for path in pages:
        text = read(path)
        new = re.sub(r"`[^`\n]+`", lambda m: respell(m.group(0)), text)
        if new != text:
            open(path, "w", encoding="utf-8").write(new)


if __name__ == "__main__":
    main()
