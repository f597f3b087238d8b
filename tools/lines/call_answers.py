"""Lines of `call_lines` for byte strings, and for what queries need of trees and trees show; with the answers due."""
import random
import re

from lines import forms
from reference.binding import bind
from reference.catalog import Catalog, CatalogTable, column_of
from reference.changes import Op, do_op
from reference.check import cell_fits
from reference.faults import BadForm, FormFault, Missing
from reference.formats import batch_bytes, read_batch, read_tree, tree_bytes
from reference.generators.mutate import byte_sets, safe, tree_variants, truncations, truth_changes
from reference.generators.odd_trees import OddTrees, sample_keys, tidied
from reference.generators.vectors import odd_value_bytes
from reference.generators.workload import Workload
from reference.plan import MAIN, Plan, run_plan, seen_row, true_all
from reference.scans import prune, scan
from reference.sql import parse_batch, parse_query
from reference.tables import Tables, apply
from reference.tree import Entry, Leaf, Stub, digest_of, empty_tree, entries_of
from reference.values import NULL, Cursor, KIND_NAMES, int_value, key_of, read_name, take_value, value_bytes, value_of_key


# -- byte strings: values, keys, columns, batches

def value(octets):
    cursor = Cursor(octets)
    try:
        taken = take_value(cursor)
    except FormFault as fault:
        return f"{fault.name} {octets.hex()}"
    return f"{forms.value(taken)} {value_bytes(taken).hex()} {octets[cursor.at:].hex()}"


def all_values(octets):
    cursor, found = Cursor(octets), []
    while cursor.left():
        found.append(take_value(cursor))
    return found


def columns(octets):
    cursor = Cursor(octets)
    count = cursor.number(1)
    if not 1 <= count <= 32:
        raise BadForm("columns")
    found = [column_of(read_name(cursor), cursor.number(1)) for _ in range(count)]
    return f"{forms.list_of(map(forms.column, found))} {octets[cursor.at:].hex()}"


def key_value(octets):
    if not octets or octets[0] not in KIND_NAMES:
        return "no kind"
    return forms.value(value_of_key(octets[0], octets[1:]))


def batch(octets):
    try:
        return forms.batch(read_batch(octets))
    except BadForm as fault:
        return fault.name


def value_or_fault(work):
    """What a call answers, a fault by its name."""
    try:
        return work()
    except (BadForm, FormFault) as fault:
        return fault.name


OF_BYTES = {
    "read": batch,
    "value": value,
    "values": lambda octets: value_or_fault(lambda: forms.values(all_values(octets))),
    "key": lambda octets: value_or_fault(lambda: key_of(take_value(Cursor(octets))).hex()),
    "key_value": lambda octets: value_or_fault(lambda: key_value(octets)),
    "columns": lambda octets: value_or_fault(lambda: columns(octets)),
}


def byte_pairs(run, count):
    """Lines of random bytes, near to values and keys."""
    for _ in range(count):
        octets = odd_value_bytes(run)
        key = run.choice([octets[1:], run.randbytes(8), b"k" * run.choice([255, 256]), b"ab"])
        number = value_bytes(int_value(run.choice([run.randrange(-9, 9), run.randrange(-(1 << 63), 1 << 63)])))
        for word, given in (("value", octets), ("values", number + octets), ("key", number),
                            ("key_value", run.choice([b"\1", b"\2", b"\3"]) + key)):
            yield f"{word} {given.hex()}".strip(), OF_BYTES[word](given)


def batch_pairs(run, count):
    """Lines of the bytes of random batches, and of such with one byte changed or cut short."""
    for _ in range(count):
        for commands in Workload(run.random(), tables=2, batches=1, commands=4, queries=0, long_texts=False).batches:
            octets = batch_bytes(commands)
            for _, given in [("", octets), *byte_sets(octets, run, 4), *truncations(octets, run, 2)]:
                yield f"read {given.hex()}".strip(), batch(given)


# -- queries on a catalog, and part trees

def line(word, text, more=b""):
    return f"{word} {text.encode().hex()}" + (f" / {more.hex()}" if more else "")


def answer_plan(catalog, text, work):
    """What a call answers of the query's plan, or why the query doesn't bind."""
    query_bound = bind(catalog, parse_query(text))
    return forms.wrong(*query_bound.fault) if query_bound.fault else work(Plan(query_bound))


def trees(plan, _):
    """Whether a table is joined with itself, whether one tree is read, and whose trees are."""
    same = len(plan.names) == 2 and plan.names[0] == plan.names[1]
    names = forms.list_of(forms.octets(place[0]) for place in plan.places)
    return f"{forms.truth(same)} {forms.truth(len(plan.places) == 1)} {names}"


def left_need(plan, _):
    return forms.need(plan.left_need)


def right_need(plan, octets):
    """What the left row of these values needs."""
    row = all_values(octets)
    if plan.query.join is None:
        return "no join"
    wanted = wanted_by(plan, [row])
    return forms.need(wanted[0]) if wanted else "none"


def wanted_by(plan, rows):
    """What those of some left rows need that meet the left condition and whose join value isn't NULL."""
    values = (row[plan.bound.join_left] for row in rows if true_all(plan.left_cond, [row]))
    return [plan.right_need(value) for value in values if value != NULL]


def read_trees(octets):
    cursor, found = Cursor(octets), []
    while cursor.left():
        found.append(read_tree(cursor))
    return found


def right_needs(plan, octets):
    """What the rows need that a left tree shows."""
    tree = read_tree(Cursor(octets))
    if plan.query.join is None:
        return "[]"
    rows = [seen_row(plan.schema(0), plan.left_place, *seen)[1] for seen in scan(tree, plan.left_need)]
    return forms.needs(wanted_by(plan, rows))


def run_trees(plan, octets):
    """What trees show for the query."""
    found = read_trees(octets)
    return forms.ran(run_plan(plan, found)) if len(found) == len(plan.places) else "other trees"


OF_QUERIES = {"trees": trees, "left_need": left_need, "right_need": right_need, "right_needs": right_needs, "run": run_trees}


def query_pair(catalog, word, text, more=b""):
    """The line of a call of a query, and its answer."""
    def answer(plan):
        try:
            return OF_QUERIES[word](plan, more)
        except Missing as fault:
            return fault.name
    return line(word, text, more), value_or_fault(lambda: answer_plan(catalog, text, answer))


# -- rows of tools/lines/call_rows

def values_in(text):
    """The values of SQL literals in parentheses."""
    return parse_batch(f"INSERT INTO t VALUES {text};")[0].values


def tree_in(text):
    """A leaf of rows in parentheses, of which those with the key alone are closed; `stub` is a closed tree."""
    if text == "stub":
        return Stub(bytes([7]) * 32)
    rows = [values_in(row) for row in re.findall(r"\([^)]*\)", text)]
    return Leaf(Entry(key_of(key), tuple(cells) or bytes([7]) * 32) for key, *cells in rows)


class Rows:
    """The rows of these calls, by the catalog that the last row of one made."""

    words = {"catalog", *OF_QUERIES}

    def __init__(self):
        self.catalog = Catalog()

    def pair(self, word, text):
        """The line of a row, and its answer."""
        if word == "catalog":
            tables = Tables()
            for command in parse_batch(text):
                apply(tables, command)
            self.catalog = World(tables).catalog
            return f"catalog {self.catalog.bytes().hex()}", str(len(self.catalog.by_name))
        query, *parts = text.split(" / ")
        if word == "right_need":
            return query_pair(self.catalog, word, query, b"".join(map(value_bytes, values_in(parts[0]))))
        return query_pair(self.catalog, word, query, b"".join(tree_bytes(tree_in(part)) for part in parts))


# -- random queries and trees

class World:
    """Tables with their whole trees."""

    def __init__(self, tables):
        self.tables = tables
        self.trees = {name: whole_tree(table) for name, table in tables.by_name.items()}
        self.catalog = Catalog({name: CatalogTable(table.schema, len(table.keys), digest_of(self.trees[name]))
                                for name, table in tables.by_name.items()})

    def pairs(self, run, text, odd):
        """Lines of a query: on the trees that prove its answer, and on so many others."""
        for word in ("trees", "left_need"):
            yield query_pair(self.catalog, word, text)
        query_bound = bind(self.catalog, parse_query(text))
        if query_bound.fault:
            return
        plan = Plan(query_bound)
        rows = self.tables.by_name[plan.names[0]].rows() if plan.query.join else []
        for row in run.sample(rows, min(3, len(rows))):
            yield query_pair(self.catalog, "right_need", text, b"".join(map(value_bytes, row)))
        for parts in self.parts(run, plan, odd):
            octets = b"".join(map(tree_bytes, parts))
            yield query_pair(self.catalog, "run", text, octets)
            if plan.query.join:
                yield query_pair(self.catalog, "right_needs", text, octets)

    def parts(self, run, plan, odd):
        """Trees that prove the answer, changed ones, and some of any shape."""
        whole = [self.trees[place[0]] for place in plan.places]
        proof = [prune(tree, needs) for tree, needs in zip(whole, run_plan(plan, whole).needs)]
        changed = [near for _, near in tree_variants(proof)]
        changed += [proof[:number] + [tree] + proof[number + 1:] for number in range(len(proof))
                    for _, tree in truth_changes(proof[number], whole[number])]
        odds = [odd_trees(run, plan) for _ in range(odd)]
        yield proof
        for trees_near in run.sample(changed, min(odd, len(changed))) + odds + [tidied(plan, one) for one in odds]:
            if trees_near and all(map(has_bytes, trees_near)) and are_typed(plan, trees_near):
                yield trees_near


def whole_tree(table):
    tree = empty_tree()
    for key, cells in zip(table.keys, table.cells):
        tree = do_op(tree, Op("insert", key, cells=tuple(cells)))
    return tree


def odd_trees(run, plan):
    """Trees of any shape, one for each that the query reads."""
    schemas = [plan.schema_of_place(place) for place in plan.places]
    return [OddTrees(run, schema, sample_keys(run, schema.key_kind())).tree(MAIN) for schema in schemas]


def has_bytes(tree):
    """Whether the tree has bytes at all."""
    return any(True for _ in safe([("", tree)], tree_bytes))


def are_typed(plan, found):
    """Whether keys and shown cells are of their columns' kinds, as those that a query is asked of are."""
    return all(is_typed(plan.schema_of_place(place), entry) for place, tree in zip(plan.places, found)
               for entry in entries_of(tree))


def is_typed(schema, entry):
    cells = () if isinstance(entry.part, bytes) else entry.part
    try:
        value_of_key(schema.key_kind(), entry.key)
    except FormFault:
        return False
    return all(cell_fits(column, cell) for cell, column in zip(cells, schema.attributes()))


def query_pairs(seed, worlds, queries, odd):
    """Lines of random queries on so many worlds, one in four of which has many rows."""
    for number in range(worlds):
        run = random.Random(seed * 1000 + number)
        work = Workload(run.random(), tables=2, batches=2, commands=run.choice([6, 10, 15, 60]), queries=queries,
                        long_texts=False)
        world = World(work.tables)
        yield f"catalog {world.catalog.bytes().hex()}", str(len(world.catalog.by_name))
        for text in work.queries:
            yield from world.pairs(run, text, odd)
