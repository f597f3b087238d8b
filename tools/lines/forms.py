"""Values of the other implementation in the written form of `line_pieces`, for the tools that make lines."""

from reference.syntax import Ref

KINDS = {1: "int", 2: "text", 3: "bool"}


def form(word, *arguments):
    """A word with its arguments."""
    return f"({' '.join([word, *arguments])})"


def list_of(items):
    return f"[{' '.join(items)}]"


def octets(text):
    """A byte string, or the bytes of a text."""
    return "0x" + (text.encode() if isinstance(text, str) else text).hex()


def or_none(thing, show):
    return "none" if thing is None else show(thing)


# -- values and rows

def truth(is_true):
    return "true" if is_true else "false"


def value(pair):
    tag, content = pair
    if tag == 0:
        return "null"
    if tag == 3:
        return truth(content)
    return form(KINDS[tag], str(content) if tag == 1 else octets(content))


def values(pairs):
    return list_of(value(pair) for pair in pairs)


def row(key, cells):
    return form("row", octets(key), values(cells))


# -- queries, and what they give

def reference(ref):
    return form("ref", or_none(ref.qualifier, octets), octets(ref.column))


def source(thing):
    return form("source", octets(thing.table), octets(thing.alias))


def join(thing):
    return form("join", source(thing.right), reference(thing.left_ref), reference(thing.right_ref))


def condition(cond):
    kind = type(cond).__name__
    if kind == "Not":
        return form("not", condition(cond.part))
    if kind in ("All", "Any"):
        return form(kind.lower(), *(condition(part) for part in cond.parts))
    if kind == "IsNull":
        return form("is_not_null" if cond.negated else "is_null", reference(cond.left))
    right = value(cond.right) if isinstance(cond.right, tuple) else reference(cond.right)
    return form(cond.op, reference(cond.left), right)


def query(thing):
    refs = getattr(thing.items, "refs", None)
    items = "all" if refs is None else list_of(map(reference, refs))
    limit = [] if thing.limit is None else [str(thing.limit)]
    return form("query", items, source(thing.left), or_none(thing.join, join), or_none(thing.cond, condition), *limit)


def outcome(result):
    if result[0] == "rows":
        return form("rows", list_of(map(octets, result[1])), rows(result[2]))
    return wrong(*result[1])


def rows(lists):
    return list_of(map(values, lists))


def check_fault(fault):
    """Why a client refuses a reply, with what it goes by and what the reply has."""
    fields = [octets(field) if isinstance(field, (bytes, str)) else str(field) for field in fault.fields.values()]
    return form(fault.name, *fields) if fields else fault.name


def answer(thing):
    """What a reply answers that a client accepts."""
    return form("answer", str(thing.version), outcome(thing.outcome))


def reference_in(text):
    return Ref(*text.split(".")) if "." in text else Ref(None, text)


def wrong(fault, *about):
    """Why a query has no rows: the fault, and the table or the column that it is of."""
    if fault == "NoTable":
        return form("wrong", form(fault, octets(about[0])))
    return form("wrong", form(fault, reference(reference_in(about[0]))) if about else fault)


# -- commands

def column(thing):
    return form("column", octets(thing.name), KINDS[thing.kind], *(["nullable"] if thing.nullable else []))


def command(thing):
    kind, table = type(thing).__name__.lower(), octets(thing.name)
    if kind == "create":
        return form(kind, table, list_of(map(column, thing.columns)), octets(thing.key))
    if kind == "insert":
        return form(kind, table, values(thing.values))
    if kind == "drop":
        return form(kind, table)
    where = octets(thing.column), value(thing.value)
    if kind == "delete":
        return form(kind, table, *where)
    sets = list_of(form("set", octets(name), value(pair)) for name, pair in thing.sets)
    return form(kind, table, sets, *where)


def batch(commands):
    return form("batch", list_of(map(command, commands)))


def script(batches):
    return list_of(map(batch, batches))


def refusal(index, fault):
    """The refusal of the command of this number."""
    return form("Command", str(index), fault)


# -- needs

def bound(thing):
    return "absent" if thing is None else form("inclusive" if thing[1] else "exclusive", octets(thing[0]))


def need(thing):
    columns = list_of(str(number) for number in sorted(thing.columns))
    return form("need", bound(thing.interval.low), bound(thing.interval.high), columns)


def needs(things):
    return list_of(map(need, things))


def ran(thing):
    return form("ran", rows(thing.rows), list_of(map(needs, thing.needs)))
