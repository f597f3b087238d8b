"""The lines that the program writes, and what its refusals say."""

from .forge import explain
from .values import literal
from .words import Stop

FAULT_WORDS = {
    "NoTable": "no table {}", "NoColumn": "no column {}", "Ambiguous": "ambiguous {}",
    "TypeMismatch": "kinds differ", "NotKeyJoin": "not a key join",
    "NoTotals": "no totals", "NotRange": "not a key range",
}


def wrong_line(fault):
    """`wrong: ...` of a QueryFault."""
    return "wrong: " + FAULT_WORDS[fault[0]].format(*fault[1:])


def fault_words(fault):
    """What stands after `refused: ` for a CheckFault."""
    name, f = fault.name, fault.fields
    if name == "TooLong":
        return f"too long {f['length']}"
    if name == "WrongKey":
        return f"wrong key {f['want'].hex()} {f['got'].hex()}"
    if name == "WrongLeaf":
        return f"wrong leaf {f['version']} {f['q']}"
    if name == "Stale":
        return f"stale {f['least']} {f['got']}"
    if name == "WrongCatalog":
        return f"wrong catalog {f['want'].hex()} {f['got'].hex()}"
    if name == "WrongTrees":
        return f"wrong trees {f['want']} {f['got']}"
    if name == "WrongRoot":
        return f"wrong root {f['table']} {f['want'].hex()} {f['got'].hex()}"
    return {"BadForm": "bad form", "BadSignature": "bad signature",
            "WrongShape": "wrong shape", "Missing": "missing",
            "Surplus": "surplus"}[name]


def seal_refused(fault):
    """How `seal` ends where the store refuses a batch."""
    if fault.name == "TooLarge":
        return Stop(1, f"refused: too large {fault.length}")
    return Stop(8, f"refused: command {fault.index} {fault.fields['fault']}")


def wire_stop(fault):
    """How a command ends where its connection does."""
    if fault.name == "LinkFault":
        return Stop(3, "fault: outside")
    if fault.name == "Refused":
        return Stop(1, f"refused: store {fault.code}")
    if fault.name == "BadFrame":
        return Stop(9, f"bad frame {fault.length}")
    return Stop(9, f"cut {fault.got}")


def owner_stop(fault):
    """How a command ends where the owner takes no step."""
    name, f = fault.name, fault.fields
    if name == "KeySpent":
        return Stop(8, "refused: key spent")
    if name == "Command":
        return Stop(8, f"refused: command {f['index']} {f['fault']}")
    if name == "ProofRoot":
        return Stop(1, f"refused: proof root {f['index']} {f['want'].hex()} {f['got'].hex()}")
    if name == "SideApart":
        return Stop(1, f"refused: proof apart {f['index']} {f['column']}")
    word = {"ProofForm": "form", "ProofMissing": "missing", "ProofSurplus": "surplus"}[name]
    return Stop(1, f"refused: proof {word} {f['index']}")


def sql_words(fault):
    """What stands after `refused: sql `."""
    if fault.name in ("Token", "Syntax", "Literal"):
        return f"{fault.name.lower()} {fault.at}"
    return {"TooLong": "too long", "Nesting": "nesting", "Name": "name",
            "TooMany": "too many"}[fault.name]


def forged_lines(secret, signed, rec, signature):
    """What `audit --seed` writes of a record that the owner never signed."""
    found = explain(secret, signed, rec, signature)
    if found[0] == "collides":
        return ["forged by collision", found[1].hex(), found[2].hex()]
    _, level, leaf, i, step, data = found
    return [f"forged chain {level} {leaf} {i} {step}", data.hex()]


def answer_lines(answer):
    """The lines of an accepted reply."""
    lines = [f"version {answer.version}"]
    if answer.outcome[0] == "wrong":
        return lines + [wrong_line(answer.outcome[1])]
    _, header, rows = answer.outcome
    lines.append(",".join(header))
    return lines + [",".join(literal(value) for value in row) for row in rows]


def lines_bytes(lines):
    """Lines as output."""
    return "".join(line + "\n" for line in lines).encode("utf-8")
