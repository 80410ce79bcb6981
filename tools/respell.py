#!/usr/bin/env python3
"""Respells the names of this repository's definitions and lemmas: words in snake case, types in camel case.

Run once, at the top, right after port.py. It reads crates/ (specs, proofs, clauses, must-fail edits) and changes nothing in code but clauses:
  - a name with humps, as in operatorNumbered, becomes operator_numbered;
  - a type with dashes, as in Operator-laws, becomes OperatorLaws;
  - in any other name a dash stays where it joins two names that are defined, as in length-append, and becomes _ elsewhere.
Names of the library, of goals and of code are left alone. With --list it prints the table and writes nothing.
"""
import collections
import os
import re
import sys

TOKEN = re.compile(r"[^\s(){}\[\],;.«»⟨⟩λ|\\\"`:]+")
# names of std that dashes join
STD = {"append", "drop", "take", "length", "set", "map", "get_or", "reverse", "nil"}
# names that would fall together with another name, or say too little
EXCEPT = {
    # a definition that has a namesake in another form, for registers with names
    "has-while": "named_has_while",
    # a statement beside the record of its parts
    "Flow-laws": "FlowLawsHold",
    "Run-laws": "RunLawsHold",
    "Well-formed": "NamedWellFormed",
    "Is-code": "IsMachineCode",
    "first_rows": "named_first_rows",
    "plain_rows": "named_plain_rows",
    # the rule of a numeral's digits, beside the fields named well_formed
    "wellFormed": "well_formed_digits",
    # the fact beside the definition number_of
    "number-of": "number_told",
    # lemmas on the definition of the same name
    "all_codes": "all_codes_lem",
    "goes_on": "goes_on_lem",
    "place_at": "place_at_lem",
    "rows_in": "rows_in_lem",
    "else-row": "else_row_lem",
    "while-row": "while_row_lem",
    "places-of": "places_of_lem",
    "row-at": "row_at_lem",
    "value-at": "value_at_lem",
    "code-z": "code_z_lem",
    "J-z": "J_z",
    "J-comm": "J_comm",
    "J-assoc": "J_assoc",
    "J-idem": "J_idem",
}
# names that may be the same as a module's, a function's in code or a clause's label: these stand apart from definitions
APART = {
    "ReadsBack", "TwoRuns", "flow_laws", "fronts_complete", "fronts_decide", "none_longer", "number_told",
    "all_legal", "assigning_row", "class_of", "first_node", "is_blank", "is_body", "is_digit", "is_else", "is_then", "is_word", "keyword_of",
    "keyword_separator", "symbol_operator", "symbol_separator", "one_script", "places_within", "reads_back", "refused_texts", "run_laws",
    "toll_laws",
}


def files():
    for root, folders, names in os.walk("crates"):
        folders[:] = sorted(f for f in folders if f != "out")
        for name in sorted(names):
            if name.endswith((".antt", ".rt", ".edit")):
                yield os.path.join(root, name)


def snake(word):
    return re.sub(r"(?<=[a-z0-9])([A-Z])", lambda m: "_" + m.group(1).lower(), word)


def scan(texts):
    own = [line.split(":")[0].split()[0] for line in open("crates.txt") if line.strip() and line[0] != "#"]
    foreign, goals, defined, functions, fields = set(), set(), set(), set(), set()
    for path, text in texts.items():
        for m in re.finditer(r"(?:ghost )?use ([\w.+·']+)\.\{([^}]*)\}", text):
            if not any(m.group(1).startswith("Rattle." + c + ".") for c in own):
                foreign.update(x.strip() for x in m.group(2).split(","))
        goals.update(re.findall(r"\b(?:goal|rules|needs|need)\.([^\s(){}]+)", text))
        if not path.endswith(".antt"):
            continue
        record = False
        for line in text.split("\n"):
            if re.match(r"\s*(pub )?record ", line):
                record = True
            elif line[:1].strip():
                record = False
            m = re.match(r"\s*((?:abbrev |unfoldable |pub |mutual |record |data )*)([^\s:(){}.]+)(?: [({].*)? :(?: |$)(.*)", line)
            if m and not re.match(r"\s*(goal|rules|needs|need)\.", m.group(3)):
                defined.add(m.group(2))
                if record and line[0] == " ":
                    fields.add(m.group(2))
                elif "-" not in m.group(2) and ("abbrev" in m.group(1) or "unfoldable" in m.group(1)):
                    functions.add(m.group(2))
    return foreign, goals, defined, functions, fields


def respelled(name, functions, fields):
    if name in EXCEPT:
        return EXCEPT[name]
    parts = name.split("-")
    if len(parts) > 1 and name[0].isupper() and len(parts[0]) > 1 and all(parts):
        return "".join(p[0].upper() + p[1:] for p in parts)
    words = [p if p[:1].isupper() else snake(p) for p in parts]
    joins = len(parts) > 1 and name not in fields and all(q in functions or q in STD for q in parts)
    return ("-" if joins else "_").join(words)


def main():
    texts = {p: open(p, encoding="utf-8").read() for p in files()}
    foreign, goals, defined, functions, fields = scan(texts)
    table = {}
    seen = collections.Counter()
    for path, text in texts.items():
        for t in TOKEN.findall(text):
            seen[t] += 1
            if t in foreign or t in goals or t in table or not re.fullmatch(r"[A-Za-z][\w'-]*", t):
                continue
            hump = path.endswith(".antt") and re.match(r"[a-z]", t) and re.search(r"[a-z0-9][A-Z]", t)
            if t in defined or hump or t in EXCEPT:
                new = respelled(t, functions, fields)
                if new != t:
                    table[t] = new
    backward = collections.defaultdict(list)
    for old, new in table.items():
        backward[new].append(old)
    # a lemma that falls together with the definition that it is about gets _lem
    for new, olds in list(backward.items()):
        dashed = [o for o in olds if "-" in o and o not in EXCEPT]
        if len(olds) == 2 and len(dashed) == 1 and new + "_lem" not in seen:
            table[dashed[0]] = new + "_lem"
            olds.remove(dashed[0])
            backward[new + "_lem"].append(dashed[0])
    clash = False
    for new, olds in sorted(backward.items()):
        if len(olds) > 1 or ((new in seen or new in foreign or new in goals) and new not in APART and new not in table):
            print("falls together:", new, olds, "stands already" if new in seen else "", "foreign" if new in foreign else "", file=sys.stderr)
            clash = True
    if "--list" in sys.argv:
        for old, new in sorted(table.items()):
            print(old, new)
        return
    if clash:
        raise SystemExit("nothing was written")
    for path, text in texts.items():
        new = TOKEN.sub(lambda m: table.get(m.group(0), m.group(0)), text)
        if new != text:
            open(path, "w", encoding="utf-8").write(new)


main()
