"""Hostile replies to a query with LIMIT, changed around the row at which its need is cut.

Those of true digests show more or less than the rows up to the last answer. The others show trees
that were changed there, under a valid signature.
"""

from dataclasses import replace

from ..binding import bind
from ..formats import read_reply
from ..plan import Plan, cut_need, run_plan
from ..scans import prune, shown_part
from ..store import reply_of
from ..tree import Entry, Inner, Leaf, Stub, digest_of
from .mutate import at_path, put_at, resign, rewrite, rooted, safe, shallow, spots


def cut_variants(secret, data, version, query):
    """All of them, of an honest reply; `version` is the store's Version that answered."""
    bound = bind(version.catalog, query)
    if query.limit is not None and bound.fault is None:
        variants = all_variants(secret, data, version, Plan(bound))
        yield from ((what, other) for what, other in variants if other != data)


def all_variants(secret, data, version, plan):
    """The same, the honest reply itself among them."""
    reply = read_reply(data)
    whole = version.trees.tree(plan.left_place)
    yield from other_counts(version, plan.query)
    for what, tree in shown_otherwise(plan, reply.trees[0], whole):
        yield what, rewrite(reply, trees=[tree])
    for what, tree in parts_of_changed(plan, whole):
        catalog = rooted(reply.catalog, plan.places, [tree])
        yield from safe([(what, [tree])], lambda trees, to=catalog: resign(secret, reply, to, trees))


def other_counts(version, query):
    """The honest replies to the query with other counts of rows, and with none."""
    for count in (1, max(1, query.limit - 1), query.limit + 1, 2 * query.limit, None):
        yield f"the reply of LIMIT {count}", reply_of(version, replace(query, limit=count))


def leaf_paths(tree):
    """The paths of the open leaves, from left to right."""
    return sorted(path for path, node in spots(tree) if isinstance(node, Leaf))


def shown_otherwise(plan, part, whole):
    """(name, tree): the nodes and rows next to the cut opened and closed, all digests true."""
    shown, leaves = leaf_paths(part), leaf_paths(whole)
    if not shown:
        return
    last = shown[-1]
    yield "the last leaf closed", put_at(part, last, Stub(digest_of(at_path(part, last))))
    yield "the last leaf's rows", put_at(part, last, shown_leaf(plan, at_path(whole, last)))
    behind = leaves[leaves.index(last) + 1:][:1]
    for path in behind:
        opened = open_to(part, whole, path)
        yield "the leaf behind", opened
        rows = put_at(opened, path, shown_leaf(plan, at_path(whole, path)))
        yield "the leaf behind and its rows", rows
        yield "the leaf behind for the last", put_at(rows, last, Stub(digest_of(at_path(part, last))))


def open_to(part, whole, path):
    """The part with each node on a path open."""
    for depth in range(len(path) + 1):
        if isinstance(at_path(part, path[:depth]), Stub):
            part = put_at(part, path[:depth], shallow(at_path(whole, path[:depth])))
    return part


def shown_leaf(plan, leaf):
    """A leaf of a whole tree with the named cells of all its rows shown."""
    names = plan.left_need.columns
    return Leaf(Entry(e.key, shown_part(e.part, names) if names else e.row_digest())
                for e in leaf.entries)


def parts_of_changed(plan, whole):
    """(name, tree): parts of trees that were changed at the cut, opened as far as the changed one
    needs, as the unchanged one did, and as without LIMIT."""
    need = cut_need(plan, whole)
    for what, tree in changed_trees(whole, need):
        for how, needs in (("", run_plan(plan, [tree]).needs[0]), (", opened as before", [need]),
                           (", opened throughout", [plan.left_need])):
            yield what + how, prune(tree, needs)


def changed_trees(whole, need):
    """(name, tree): whole trees with something else at the last row that the need has."""
    leaves, high = leaf_paths(whole), need.interval.high
    key = high[0] if high else b"\xff" * 8
    at = max((n for n, path in enumerate(leaves) if first_key(whole, path) <= key), default=0)
    path = leaves[at]
    entries = list(at_path(whole, path).entries)
    place = next((n for n, entry in enumerate(entries) if entry.key == key), len(entries) - 1)
    if place < 0:
        return
    for what, others in changed_leaves(entries, place):
        yield what, put_at(whole, path, Leaf(others[:16]))
    if at + 1 < len(leaves):
        yield from changed_neighbours(whole, path, leaves[at + 1], entries, place)


def first_key(whole, path):
    """The first key of a leaf, or none."""
    entries = at_path(whole, path).entries
    return entries[0].key if entries else b""


def changed_leaves(entries, place):
    """(name, entries) of the leaf at the cut."""
    entry, others = entries[place], entries[:place] + entries[place + 1:]
    yield "the last row left out", others
    yield "the last row twice", others[:place] + [entry, entry] + others[place:]
    yield "the last row first", [entry] + others
    yield "the last row behind the others", others + [entry]
    for what, key in (("first", entries[0].key), ("last", entries[-1].key)):
        yield f"the last row's key as the leaf's {what}", entries[:place] + [
            Entry(key, entry.part)] + entries[place + 1:]
    yield "all rows of the last one's key", [Entry(entry.key, e.part) for e in entries]
    yield "the last row's cells as another one's", entries[:place] + [
        Entry(entry.key, entries[place - 1].part)] + entries[place + 1:]


def changed_neighbours(whole, path, behind, entries, place):
    """(name, tree): rows moved between the leaf at the cut and the one behind it, and another key
    between the two."""
    entry, next_entries = entries[place], list(at_path(whole, behind).entries)
    others = entries[:place] + entries[place + 1:]

    def with_leaves(left, right):
        return put_at(put_at(whole, path, Leaf(left)), behind, Leaf(right[:16]))
    yield "the last row moved over the cut", with_leaves(others, [entry] + next_entries)
    yield "the last rows moved over the cut", with_leaves(entries[:place], entries[place:] + next_entries)
    yield "a row moved before the cut", with_leaves((next_entries[:1] + entries)[:16], next_entries[1:])
    yield "the leaves exchanged", with_leaves(next_entries, entries)
    fork = next(depth for depth in range(len(path)) if path[depth] != behind[depth])
    node = at_path(whole, path[:fork])
    for what, separator in (("the last key", entry.key), ("the first key", entries[0].key),
                            ("a key above it", entry.key + b"\0"), ("no key", b"")):
        separators = list(node.separators)
        separators[path[fork]] = separator
        yield f"separated by {what}", put_at(whole, path[:fork], Inner(separators, node.slots))
