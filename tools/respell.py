#!/usr/bin/env python3
"""Brings the names of this repository's definitions and lemmas to the spelling of its language: snake case.

Run once at the top of a checkout, after the kit's port.py. Names of the kit, of Rust items and of goals stay.
"""
import glob
import re
import sys

LIBRARIES = "cell text meaning algebra paths order forming records files reader netlist circuits station rows console"
OWN = re.compile(r"Rattle\.(" + "|".join(LIBRARIES.split()) + r")\.")
LETTER = r"A-Za-zℕ\u00c0-\u024f\u0370-\u03ff"
TOKEN = re.compile(rf"(?<![\w'\-])[{LETTER}_](?:[\w'\u2080-\u2089]|-(?=[\w'\u2080-\u2089]))*")

# Where the plain rule would give two things one name, or a definition the name of a Rust function. (Two of these lemmas are in snake
# case already, by port.py.)
SPECIAL = {
    "gate-takes": "gate_takes_lem", "map-ok": "map_ok_lem", "net-at": "net_at_lem", "nets-at": "nets_at_lem",
    "nets-of": "nets_of_lem", "if-closed": "if_closed_lem", "nothing-after": "nothing_after_lem",
    "gate-nets": "gate_nets_lem", "on-nets": "on_nets_lem", "nets-from": "nets_from_lem", "inHand": "is_in_hand",
    "is_known": "is_known_lem", "only_one": "only_one_lem", "is-source": "is_source_lem", "put-bits": "put_bits_lem",
    "traced-states": "traced_states_lem", "firstWord": "leading_word", "gateOf": "gate_from", "isName": "spells_name",
    "nameByte": "is_name_byte", "oneField": "single_field", "reasonFor": "reason_of", "atMost127": "at_most_127",
}


def is_old(name):
    return "-" in name or (name[0].islower() and re.search("[A-Z]", name) is not None)


def snake(name):
    if name in SPECIAL:
        return SPECIAL[name]
    name = name.replace("getD", "get_or")
    name = re.sub(r"(?<=[a-z0-9])[A-Z]", lambda m: "_" + m.group().lower(), name)
    return name.replace("-", "_")


def uncommented(path, text):
    return re.sub(r"--.*" if path.endswith(".antt") else r"//.*", "", text)


def is_answer(path):
    """A file of a function's own proof, which cites names of goals."""
    return "/proofs/" in path and "/" in path.split("/proofs/")[1]


def main():
    paths = [p for kind in ("specs/**/*.antt", "proofs/**/*.antt", "src/**/*.rt")
             for p in glob.glob("crates/*/" + kind, recursive=True)]
    texts = {p: open(p, encoding="utf-8").read() for p in paths}
    kit = set()
    for text in texts.values():
        for module, names in re.findall(r"(?m)^(?:ghost )?use ([^\s{]+?)\.?\{([^}]*)\}", text):
            if not OWN.match(module) and "." in module:
                kit |= {word for part in names.split(",") for word in part.split(" as ") if word.strip()}
    kit = {word.strip() for word in kit}
    lemmas = [p for p in paths if p.endswith(".antt") and not is_answer(p)]
    old = {t for p in lemmas for t in TOKEN.findall(uncommented(p, texts[p])) if is_old(t) and t not in kit}
    old |= {t for t in SPECIAL if not is_old(t)}
    # names that a Rust file gives to what it imports
    for p in paths:
        if p.endswith(".rt"):
            imports = " ".join(re.findall(r"(?m)^ *ghost use .*", texts[p]))
            old |= {alias for alias in re.findall(r" as (\w+)", imports) if is_old(alias)}
    for p in paths:
        changed = respell_clauses(texts[p], old) if p.endswith(".rt") else respell(texts[p], old)
        if changed != texts[p]:
            open(p, "w", encoding="utf-8").write(changed)
    for name in sorted(old):
        print(name, snake(name), file=sys.stdout)


def respell(text, old):
    return TOKEN.sub(lambda m: snake(m.group()) if m.group() in old else m.group(), text)


def respell_clauses(text, old):
    """The code's own names stay: only clauses, ghost items and their imports are respelled."""
    clause = re.compile(r"\s*(ghost |requires|ensures|decreases)")
    return "\n".join(respell(line, old) if clause.match(line) else line for line in text.split("\n"))


if __name__ == "__main__":
    main()
