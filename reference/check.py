"""The reader's check of a reply: each of its tests, in order."""

from dataclasses import dataclass

from .binding import bind
from .faults import BadForm, CheckFault, FormFault, Missing
from .formats import REPLY_LIMIT, read_reply
from .lms import leaf_number, verify
from .plan import MAIN, Plan, run_plan
from .scans import has_surplus, is_missing
from .syntax import SUM
from .totals import totals_missing, totals_surplus
from .tree import LEAVES, digest_of, open_nodes
from .values import NULL, split_index_key, value_of_key


@dataclass
class Answer:
    """What an accepted reply answers."""
    version: int
    outcome: tuple          # ('wrong', fault) or ('rows', header, rows)


def key_fits(schema, where, key):
    """Whether a leaf key is the schema's, in a tree at that place."""
    try:
        if where == MAIN or where.kind == SUM:
            value_of_key(schema.key_kind(), key)
        else:
            split_index_key(schema.columns[where.column].kind, schema.key_kind(), key)
    except FormFault:
        return False
    return True


def cell_fits(column, cell):
    """A hidden cell, or a value of the column's kind."""
    if isinstance(cell, bytes):
        return True
    if cell == NULL:
        return column.nullable
    return cell[0] == column.kind


def part_fits(schema, part, kinds=True):
    """The schema's cell count and, with `kinds`, the kinds of shown cells."""
    if isinstance(part, bytes):
        return True
    attributes = schema.attributes()
    return len(part) == len(attributes) and (not kinds or all(
        cell_fits(c, cell) for c, cell in zip(attributes, part)))


def tree_fits(schema, where, root, kinds=True):
    """Right family, leaf keys, cell counts, kinds of shown cells."""
    totals = where != MAIN and where.kind == SUM
    nodes = list(open_nodes(root))
    entries = [e for node in nodes if isinstance(node, LEAVES) for e in node.entries]
    return (all(node.totals == totals for node in nodes)
            and all(key_fits(schema, where, entry.key) for entry in entries)
            and (totals or all(part_fits(schema, entry.part, kinds) for entry in entries)))


def root_of(table, where):
    """The root that a catalog table has for one of its trees."""
    if where == MAIN:
        return table.root
    return table.side_roots[table.schema.sides.index(where)]


def check_of(key, least, query, data):
    """The first CheckFault that holds, raised; else the Answer."""
    if len(data) > REPLY_LIMIT:
        raise CheckFault("TooLong", length=len(data))
    try:
        reply = read_reply(data)
    except BadForm:
        raise CheckFault("BadForm") from None
    _check_signed(key, least, reply)
    digest = reply.catalog.digest()
    if digest != reply.rec.catalog:
        raise CheckFault("WrongCatalog", want=reply.rec.catalog, got=digest)
    bound = bind(reply.catalog, query)
    plan = None if bound.fault else Plan(bound)
    want = len(plan.places) if plan else 0
    if len(reply.trees) != want:
        raise CheckFault("WrongTrees", want=want, got=len(reply.trees))
    if plan is None:
        return Answer(reply.rec.version, ("wrong", bound.fault))
    return Answer(reply.rec.version, _check_trees(plan, reply))


def _check_signed(key, least, reply):
    rec = reply.rec
    if rec.ident != key.ident:
        raise CheckFault("WrongKey", want=key.ident, got=rec.ident)
    leaf = leaf_number(key, reply.signature)
    if leaf is not None and leaf != rec.version:
        raise CheckFault("WrongLeaf", version=rec.version, q=leaf)
    if not verify(key, rec.bytes(), reply.signature):
        raise CheckFault("BadSignature")
    if rec.version < least:
        raise CheckFault("Stale", least=least, got=rec.version)


def _check_trees(plan, reply):
    pairs = list(zip(plan.places, reply.trees))
    for place, tree in pairs:
        if not tree_fits(plan.schema_of_place(place), place[1], tree):
            raise CheckFault("WrongShape")
    for place, tree in pairs:
        want = root_of(reply.catalog.by_name[place[0]], place[1])
        if digest_of(tree) != want:
            raise CheckFault("WrongRoot", table=place[0], want=want, got=digest_of(tree))
    try:
        ran = run_plan(plan, reply.trees)
    except Missing:
        raise CheckFault("Missing") from None
    judged = list(zip(reply.trees, ran.needs))
    lacks, extra = ((totals_missing, totals_surplus) if plan.totals
                    else (is_missing, has_surplus))
    if any(lacks(tree, needs) for tree, needs in judged):
        raise CheckFault("Missing")
    if any(extra(tree, needs) for tree, needs in judged):
        raise CheckFault("Surplus")
    return ("rows", plan.bound.header, ran.rows)


class Client:
    """A public key and the least version that it takes."""

    def __init__(self, key, least=0):
        self.key, self.least = key, least

    def check(self, query, data):
        """After Ok the least is the version; after a refusal it stays."""
        answer = check_of(self.key, self.least, query, data)
        self.least = answer.version
        return answer
