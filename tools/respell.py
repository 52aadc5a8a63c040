#!/usr/bin/env python3
"""Brings the names of this repository's own definitions and lemmas to snake case: 'roundedUp' and 'rounded-up-by' become 'rounded_up' and 'rounded_up_by'.

usage: respell.py FOLDER      FOLDER is a checkout in which port.py has run, and this script has not

It turns the names that specs/ and proofs/ declare, in these files, in the clauses of src/, in must-fail/ and in the code spans of README.md and docs/.
Functions of src/, the names that Rattle makes, and what a library declares under the same name stay. Where two names would fall together, OTHERWISE says
how one of them is written. Our choice by a test was written as the library's now is, which rt ci refuses: `if a then x else y` becomes `when a then x else y`.
It prints what it turned, and each place where two names of one file would become one.
"""
import collections
import os
import re
import sys

TOKEN = re.compile(r"[^\s(){}.;,@\"«»`]+")
NAME = TOKEN.pattern
DECLARED = re.compile(
    r"^( *)((?:(?:pub|abbrev|unfoldable) +)*)(?:(?:record|data|ruleset) +)?(?:pub +)?(" + NAME + r")((?: +[({][^\n]*?[)}])*) +:(?: |$)", re.M
)
ANSWER = re.compile(r"^(?:abbrev )?(?:pub )?(" + NAME + r") : tie\.", re.M)
# The names that would fall together with another of one file, or with a field of a struct of src/.
OTHERWISE = {
    "back-item": "back_item_same",
    "bad-particular": "bad_particular_said",
    "condition-line": "condition_line_is",
    "half-breadths": "half_breadths_ranged",
    "in-range": "is_in_range",
    "is-whole": "is_whole_of",
    "items-fit": "items_fitting",
    "last_row": "last_row_of_table",
    "metacentre-fits": "metacentre_fitting",
    "own-gms": "own_gms_are",
    "place-from": "place_from_row",
    "plainest-profiles": "plainest_profiles_are",
    "plainest-surfaces": "plainest_surfaces_are",
    "plainest-tests": "plainest_tests_are",
    "refused-with": "refused_with_it",
    "row-in": "row_in_is",
    "rows-allowed": "rows_are_allowed",
    "same-totals": "same_totals_of_one",
    "shift_count": "shift_count_is",
    "shifts_fit": "shifts_are_fit",
    "shortest-files": "shortest_files_are",
    "shortest-files-before": "shortest_files_before_are",
    "sines-right": "sines_are_right",
    "tanks-from": "tanks_from_front",
    "text-of": "text_of_outcome",
    "too-heavy": "is_too_heavy",
    "too-light": "is_too_light",
    "too_long": "text_too_long",
    "usable-row": "usable_row_of",
    "wrong_size": "is_wrong_size",
    "inPlace": "is_in_place",
    "measuredGM": "gm_measured",
    "freeSurface": "free_surface_of",
    "verticalMoment": "vertical_moment_of",
    "transverseMoment": "transverse_moment_of",
    "longitudinalMoment": "longitudinal_moment_of",
    "if◌then◌else◌": "when◌then◌else◌",
    "if": "when",
}


def snake(name):
    if name in OTHERWISE:
        return OTHERWISE[name]
    name = name.replace("′", "'")
    if "◌" in name and name[0] != name[0].upper():
        return "◌".join(snake(p) if p else p for p in name.split("◌"))
    if name[0].isupper() and "-" not in name:
        return name
    name = re.sub(r"(?<=[a-z0-9])([A-Z])", r"_\1", name)
    name = re.sub(r"(?<=[a-z0-9])ℤ(?=[A-Za-z-]|$)", "_ℤ", name)
    if name.startswith(":"):
        return name
    parts = name.replace("-", "_").split("_")
    return "_".join(p if i == 0 and p[:1].isupper() else p.lower() if p != "ℤ" else p for i, p in enumerate(parts))


def files(root, *ends):
    for folder, dirs, names in os.walk(root):
        dirs[:] = sorted(d for d in dirs if d not in ("out", "target", ".git"))
        for name in sorted(names):
            if name.endswith(ends):
                yield os.path.join(folder, name)


def read(path):
    with open(path, encoding="utf-8") as f:
        return f.read()


def turned(text, table):
    return TOKEN.sub(lambda m: table.get(m.group(0), m.group(0)), text)


def antt(text, table):
    lines = []
    for line in text.split("\n"):
        code, dashes, comment = line, "", ""
        at = re.search(r"(?:^|(?<=\s))--", line)
        if at:
            code, dashes, comment = line[: at.start()], "--", line[at.start() + 2 :]
            comment = re.sub(r"`[^`]*`", lambda m: turned(m.group(0), table), comment)
            # The list of names at a file's head: names, two spaces or more, what they say.
            head = re.match(r"( {4,})(\S.*?)(?=  |$)(.*)", comment)
            if head and not code.strip():
                comment = head.group(1) + turned(head.group(2), table) + head.group(3)
        lines.append(turned(code, table) + dashes + comment)
    return "\n".join(lines)


def clauses(text, table):
    text = re.sub(r"ghost use [^;]*;", lambda m: turned(m.group(0), table), text)
    text = re.sub(r"(?<=\s)(requires|ensures)\b[^{\n]*\{[^\n]*\}", lambda m: turned(m.group(0), table), text)
    return re.sub(r"//[^\n]*", lambda m: re.sub(r"`[^`]*`", lambda s: turned(s.group(0), table), m.group(0)), text)


def main():
    root = sys.argv[1]
    crates = os.path.join(root, "crates")
    own = sorted(os.listdir(crates))
    texts = {p: read(p) for p in files(crates, ".antt")}
    table = {}
    for path, text in texts.items():
        answers = set(ANSWER.findall(text))
        for m in DECLARED.finditer(re.sub(r"--[^\n]*", "", text)):
            name = m.group(3)
            if name not in answers and snake(name) != name:
                table[name] = snake(name)
                if "◌" in name:
                    table.update({p: snake(p) for p in name.split("◌") if p and snake(p) != p})
    # A name that begins with a sign of the library's is written as the library writes such names.
    imported = re.compile(r"^ *use (\S+?)\.\{([^}]*)\}", re.M)
    clashes = 0
    for path, text in texts.items():
        skip = set(ANSWER.findall(text))
        for module, names in imported.findall(text):
            if not any(module.startswith("Rattle." + c + ".") for c in own):
                skip |= {n.strip().split(" as ")[-1].strip() for n in names.split(",")} | {n.strip().split(" as ")[0].strip() for n in names.split(",")}
        here = {k: v for k, v in table.items() if k not in skip}
        kept = sorted(k for k in table if k in skip and k in TOKEN.findall(text))
        if kept and os.path.basename(path) != "Proof.antt":
            print("kept:", path, *kept)
        seen = collections.defaultdict(set)
        for word in set(TOKEN.findall(re.sub(r"--[^\n]*", "", text))):
            seen[here.get(word, word)].add(word)
        for new, words in seen.items():
            if len(words) > 1:
                clashes += 1
                print("together:", path, new, *sorted(words))
        new = antt(text, here)
        if new != text:
            open(path, "w", encoding="utf-8").write(new)
    for path in files(crates, ".rt"):
        text = read(path)
        new = clauses(text, table)
        if new != text:
            open(path, "w", encoding="utf-8").write(new)
    for path in files(crates, ".edit"):
        text = read(path)
        if re.search(r"^file: (specs|proofs)/", text, re.M):
            new = turned(text, table)
        else:
            new = clauses(text, table)
        if new != text:
            open(path, "w", encoding="utf-8").write(new)
    for path in [os.path.join(root, "README.md")] + list(files(os.path.join(root, "docs"), ".md")):
        if os.sep + "landings" + os.sep in path or "PORT" in os.path.basename(path):
            continue
        text = read(path)
        new = re.sub(r"(?<!`)`[^`\n]+`(?!`)", lambda m: turned(m.group(0), table), text)
        if new != text:
            open(path, "w", encoding="utf-8").write(new)
    print(len(table), "names,", clashes, "clashes")


main()
