#!/usr/bin/env python3
"""Brings the repository's own definitions and lemmas to today's spelling: words in snake case, types and modules in camel case.

usage: python3 tools/respell.py        at the top of the repository, once, right after the port/port.py of the kit

port.py turns the spelling of the language and of the names that the kit's library has too. This turns the others: in specs/ and proofs/ each name of the
repository's own, in src/ the names that clauses and ghost lines use, and in must-fail/ the same in an edit's text. Functions of src/, exported
names, strings, inputs and outputs keep theirs. Names that would fall together get one name each: NAMED says which. What was renamed goes
to tools/respelled.txt, a line for each name.
"""

import collections
import glob
import re

# two names that are one word in snake case: the definition keeps the word, and the other is named for what it is
NAMED = {
    # port.py took the place of a seat's own for a name of the kit's library
    "field_own": "own_at",
    # a definition of a run, beside constructors of that word
    "oneMore": "one_step_more",
    # fields
    "claim-of": "claim_kept",
    "is-phase": "has_phase",
    "seat-sound": "seat_is_sound",
    "once-linked": "linked_once",
    "reader-validating": "validating_reader",
    "writer-validating": "validating_writer",
    # constructors
    "no-seat": "no_such_seat",
    "reader-waiting": "waiting_reader",
    # values of a proof's own
    "isHolder": "is_holder_here",
    "isJoined": "is_joined_here",
    "isNext": "is_next_here",
    "isSeat": "is_seat_here",
    "isSound": "is_sound_here",
    "last-row": "last_row_here",
    "no-rows": "no_rows_here",
    "rows-in": "rows_in_here",
    # lemmas: the law of the definition of that name
    "answer-by": "answer_by_law",
    "claim-node": "claim_node_law",
    "claim-numbers": "claim_numbers_law",
    "clear-words": "clear_words_law",
    "counts-fit": "counts_fit_law",
    "ends-within": "ends_within_law",
    "enter-seat": "enter_seat_law",
    "fill-down": "fill_down_law",
    "first-bad": "first_bad_law",
    "free-count": "free_count_law",
    "idle-or-owning": "idle_or_owning_law",
    "is-kind": "is_kind_law",
    "is-type": "is_type_law",
    "lengths-fit": "lengths_fit_law",
    "list-ends": "list_ends_law",
    "lock-numbers": "lock_numbers_law",
    "may-be-in": "may_be_in_law",
    "may-claim": "may_claim_law",
    "node-count": "node_count_law",
    "nodes-fit": "nodes_fit_law",
    "read-on": "read_on_law",
    "readers-at": "readers_at_law",
    "release-seat": "release_seat_law",
    "seat-count": "seat_count_law",
    "seat-of": "seat_of_law",
    "seats-fit": "seats_fit_law",
    "step-told": "step_told_law",
    "title-fits": "title_fits_law",
    "writers-at": "writers_at_law",
    "zero-below": "zero_below_law",
    "zero-node": "zero_node_law",
}
# lemmas whose word was in snake case already, where a definition now takes it
SNAKE = {"both_read": "both_read_law", "in_bounds": "in_bounds_law", "is_digit": "is_digit_law", "no_run": "no_run_law"}
TAKEN = {"bothRead", "inBounds", "isDigit", "noRun"}

TOKEN = re.compile(r"(\.?)([^\s(){}\[\];,.«»|@:]+)")
SIGNED = re.compile(r"^\s*(?:abbrev\s+|unfoldable\s+)?(?:pub\s+)?((?:[^\s(){}:=|]+\s+)+):\s")
USED = re.compile(r"^\s*(?:pub\s+|ghost\s+)*use\s+([^\s{;]+?)(?:\.\{([^}]*)\})?(?:\s+as\s+([^\s;]+))?;?\s*$")


def files(kinds):
    found = []
    for kind in kinds:
        found += glob.glob("crates/*/" + kind, recursive=True)
    return sorted(found)


ANTT = files(["specs/**/*.antt", "proofs/**/*.antt"])
RUST = files(["src/**/*.rt"])
EDITS = files(["must-fail/*.edit"])


def own_crates():
    with open("crates.txt", encoding="utf-8") as lines:
        return {line.split(":")[0].split()[0] for line in lines if line.strip() and not line.startswith("#")}


def code_of(line):
    return re.sub(r"(^|\s)--\s.*", "", line)


def is_older(name):
    return re.match(r"[a-z]", name) and (re.search(r"[^-]-[^-]", name) or re.search(r"[A-Z]", name)) is not None


def snake(name):
    return re.sub(r"([a-z0-9'])([A-Z])", lambda m: m.group(1) + "_" + m.group(2).lower(), name.replace("-", "_"))


# the names that files take from the kit's library, by file; the names that the repository's own files make; the fields that are only read
def gathered():
    crates = own_crates()
    library, own, plain, read = collections.defaultdict(set), set(), set(), set()
    for path in ANTT + RUST:
        with open(path, encoding="utf-8") as lines:
            for line in lines:
                if path.endswith(".rt") and line.lstrip().startswith("//"):
                    continue
                code = code_of(line)
                used = USED.match(code)
                if used and "." in used.group(1):
                    steps = used.group(1).split(".")
                    mine = steps[0] == "Rattle" and steps[1] in crates
                    for item in (used.group(2) or "").split(","):
                        parts = [part.strip() for part in item.split(" as ")]
                        if parts[0] and not mine:
                            library[path].add(parts[0])
                        if len(parts) > 1:
                            own.add(parts[1])
                    if used.group(3):
                        own.add(used.group(3))
                    continue
                if path.endswith(".rt"):
                    continue
                signed = SIGNED.match(code)
                if signed:
                    own.update(signed.group(1).split())
                for dot, name in TOKEN.findall(code):
                    (read if dot else plain).add(name)
    return library, own, plain, read


def renamings():
    library, own, plain, read = gathered()
    everywhere = set().union(*library.values())
    names = {name for name in own | plain if is_older(name) and (name in own or name not in everywhere)}
    table = {}
    for name in sorted(names):
        table[name] = NAMED.get(name, snake(name))
    table["field_own"] = NAMED["field_own"]
    met = collections.defaultdict(list)
    for name, new in table.items():
        met[new].append(name)
    for new, names in sorted(met.items()):
        if len(names) > 1:
            raise SystemExit("respell: two names for %s: %s" % (new, ", ".join(names)))
        if new in plain and new != names[0] and not (new in SNAKE and names[0] in TAKEN) and new not in everywhere and new not in READ_ONLY:
            raise SystemExit("respell: %s is there already, for %s" % (new, names[0]))
    return table, library


# words that stand alone in a file for a function's own module or the like, and meet no definition there
READ_ONLY = {"last_row", "no_rows", "own_at", "rows_in"}


def turned(text, table, kept, snake_too):
    def one(match):
        dot, name = match.group(1), match.group(2)
        if name in kept:
            return match.group(0)
        if name in table:
            return dot + table[name]
        if snake_too and not dot and name in SNAKE:
            return SNAKE[name]
        return match.group(0)

    return TOKEN.sub(one, text)


# a comment keeps its words but for names that no sentence has: those with a capital inside
def comment(text, table):
    camel = {name: new for name, new in table.items() if "-" not in name}
    return re.sub(r"[A-Za-z][A-Za-z0-9']*", lambda m: camel.get(m.group(0), m.group(0)), text)


def turn_antt(path, table, library):
    kept = library.get(path, set())
    lines = []
    for line in open(path, encoding="utf-8"):
        at = re.search(r"(^|\s)--\s", line)
        code, rest = (line, "") if at is None else (line[: at.start()], line[at.start() :])
        lines.append(turned(code, table, kept, True) + comment(rest, table))
    with open(path, "w", encoding="utf-8") as file:
        file.writelines(lines)


CLAUSE = re.compile(r"^\s*(ghost|requires|ensures|pub ghost)\b")


def turn_rust(path, table):
    lines, inside = [], 0
    for line in open(path, encoding="utf-8"):
        if line.lstrip().startswith("//"):
            lines.append(comment(line, table))
            continue
        if inside or CLAUSE.match(line):
            lines.append(turned(line, table, set(), False))
            inside = max(0, inside + line.count("{") - line.count("}"))
        else:
            lines.append(line)
    with open(path, "w", encoding="utf-8") as file:
        file.writelines(lines)


# ---- edits: the forms that port.py turns in specs/, and then the names
def older_form(text):
    fields = r"((?:\.[a-z][\w-]* ?)+)"
    joined = lambda m: m.group(1).replace(" ", "")
    text = re.sub(r"\(([\w'₀-₉]+) " + fields + r"\)", lambda m: m.group(1) + m.group(2).replace(" ", ""), text)
    text = re.sub(r"\(([\w'₀-₉-]+(?: [\w'₀-₉-]+)+) " + fields + r"\)", lambda m: "(" + m.group(1) + ")" + m.group(2).replace(" ", ""), text)
    text = re.sub(r"(?<=[\w'₀-₉)]) " + fields + r"(?=$|[\s);,])", lambda m: joined(m) + (" " if m.group(1).endswith(" ") else ""), text)
    return text


# a name that port.py turned, since the kit's library has it too, stands so in the file that the edit is of
def of_library(text, file):
    words = set(re.findall(r"[^\s(){}\[\];,.«»|@:]+", file))
    return re.sub(r"(?<![\w-])[a-z][\w'-]*(?![\w-])", lambda m: snake(m.group(0)) if is_older(m.group(0)) and m.group(0) not in words and snake(m.group(0)) in words else m.group(0), text)


def turn_edit(path, table):
    lines, of_rules, file = [], False, ""
    for line in open(path, encoding="utf-8"):
        if line.startswith("file: "):
            of_rules = line.strip().endswith(".antt")
            with open(path.split("/must-fail/")[0] + "/" + line[6:].strip(), encoding="utf-8") as source:
                file = source.read()
        if line.startswith(("old: ", "new: ")):
            head, text = line[:5], line[5:].rstrip("\n")
            if of_rules:
                text = of_library(turned(older_form(text), table, set(), True), file)
            else:
                text = re.sub(r"(?<![\w\"])[a-z]+[a-z0-9]*[A-Z]\w*", lambda m: table.get(m.group(0), m.group(0)), text)
            line = head + text + "\n"
        lines.append(line)
    with open(path, "w", encoding="utf-8") as file:
        file.writelines(lines)


def main():
    table, library = renamings()
    for path in ANTT:
        turn_antt(path, table, library)
    for path in RUST:
        turn_rust(path, table)
    for path in EDITS:
        turn_edit(path, table)
    with open("tools/respelled.txt", "w", encoding="utf-8") as out:
        for name, new in sorted(list(table.items()) + list(SNAKE.items())):
            out.write("%s -> %s\n" % (name, new))


main()
