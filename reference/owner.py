"""An owner that holds roots alone: its next roots by proofs, its steps, and what it wrote."""

from dataclasses import dataclass, replace

from .catalog import Catalog, new_table, record_of
from .check import tree_fits
from .faults import BadForm, EntryFault, Missing, OwnerFault, UpdateFault
from .formats import JournalEntry, read_proofs, write_proofs
from .lms import signed_by_leaf
from .plan import MAIN
from .stages import has
from .syntax import Create, Delete, Drop, Insert
from .tables import catalog_refusal, schema_of
from .changes import do_op, found_entry, is_update_proof
from .tree import digest_of, row_digest
from .work import main_op, new_part, side_ops

NO_PROOFS = write_proofs([])


@dataclass
class Roots:
    """A version, and the catalog of its tables."""
    version: int
    catalog: Catalog

    def next(self, batch, proofs):
        """The roots after the batch, or the first OwnerFault."""
        try:
            trees = read_proofs(proofs)
        except BadForm:
            raise OwnerFault("ProofForm", index=0) from None
        catalog, left = self.catalog.copy(), list(reversed(trees))
        for index, command in enumerate(batch):
            _next_command(catalog, index, command, left)
        if left:
            raise OwnerFault("ProofSurplus", index=len(batch))
        return Roots(self.version + 1, catalog)


def _next_command(catalog, index, command, left):
    refusal = catalog_refusal(catalog, command)
    if refusal:
        raise OwnerFault("Command", index=index, fault=refusal)
    if isinstance(command, Create):
        catalog.by_name[command.name] = new_table(schema_of(command))
    elif isinstance(command, Drop):
        del catalog.by_name[command.name]
    else:
        _next_row(catalog, index, command, left)


def _judged(index, left, schema, where, root, op):
    """The next tree of the proofs, once all of its tests are passed."""
    if not left:
        raise OwnerFault("ProofMissing", index=index)
    tree = left.pop()
    if not tree_fits(schema, where, tree, kinds=has("indexes")):
        raise OwnerFault("ProofForm", index=index)
    if digest_of(tree) != root:
        raise OwnerFault("ProofRoot", index=index, want=root, got=digest_of(tree))
    try:
        exact = is_update_proof(tree, op)
    except Missing:
        raise OwnerFault("ProofMissing", index=index) from None
    if not exact:
        raise OwnerFault("ProofSurplus", index=index)
    return tree


def _next_row(catalog, index, command, left):
    table = catalog.by_name[command.name]
    schema = table.schema
    op = main_op(schema, command)
    tree = _judged(index, left, schema, MAIN, table.root, op)
    try:
        changed = do_op(tree, op)
    except UpdateFault as fault:
        raise OwnerFault("Command", index=index, fault=fault.name) from None
    old = found_entry(tree, op.key)
    new = new_part(op, old and old.part)
    part = None if new is None else row_digest(new)
    side_roots = list(table.side_roots)
    for number, work in side_ops(schema, command, old and old.part, part):
        side = schema.sides[number]
        tree = _judged(index, left, schema, side, side_roots[number], work)
        try:
            side_roots[number] = digest_of(do_op(tree, work))
        except UpdateFault:
            raise OwnerFault("SideApart", index=index, kind=side.kind,
                             column=side.column) from None
    rows = table.rows + isinstance(command, Insert)
    if isinstance(command, Delete):
        rows = max(0, rows - 1)
    catalog.by_name[command.name] = replace(table, rows=rows, root=digest_of(changed),
                                            side_roots=tuple(side_roots))


@dataclass
class Step:
    """An entry, and the roots behind it."""
    entry: JournalEntry
    roots: Roots


class Owner:
    """A secret key, and the roots of the newest version."""

    def __init__(self, key, roots):
        self.key, self.roots = key, roots

    @staticmethod
    def start(key):
        """The owner at version 0 and entry 0."""
        roots = Roots(0, Catalog())
        return Owner(key, roots), _entry_of(key, (), NO_PROOFS, roots)

    def is_spent(self):
        """Whether the key has no leaf for a further version."""
        return self.roots.version + 1 == self.key.leaves()

    def step(self, batch, proofs):
        """KeySpent, then the faults of `next`; else the entry and its roots."""
        if self.is_spent():
            raise OwnerFault("KeySpent")
        roots = self.roots.next(batch, proofs)
        return Step(_entry_of(self.key, tuple(batch), bytes(proofs), roots), roots)

    def advance(self, step):
        """Goes on to the roots of a step."""
        self.roots = step.roots


def _entry_of(key, batch, proofs, roots):
    rec = record_of(key.ident, roots.version, roots.catalog)
    return JournalEntry(batch, proofs, rec, key.sign(roots.version, rec.bytes()))


def replay(key, entries):
    """The owner after these entries; Entry{index} for the first that is not
    what `start` or `step` gives, 0 for no entries."""
    owner, first = Owner.start(key)
    if not entries or entries[0] != first:
        raise EntryFault("Entry", index=0)
    for index, entry in enumerate(entries[1:], 1):
        try:
            step = owner.step(entry.batch, entry.proofs)
        except OwnerFault:
            raise EntryFault("Entry", index=index) from None
        if step.entry != entry:
            raise EntryFault("Entry", index=index)
        owner.advance(step)
    return owner


def owned_roots(key, entries):
    """The roots after each first entry that is owned."""
    out = []
    for index, entry in enumerate(entries):
        if index == 0:
            if entry.batch or entry.proofs != NO_PROOFS:
                return out
            roots = Roots(0, Catalog())
        else:
            try:
                roots = out[-1].next(entry.batch, entry.proofs)
            except OwnerFault:
                return out
        if entry.rec != record_of(key.ident, roots.version, roots.catalog):
            return out
        if not signed_by_leaf(key, roots.version, entry.rec.bytes(), entry.signature):
            return out
        out.append(roots)
    return out


def owned(key, entries):
    """How many first entries are owned."""
    return len(owned_roots(key, entries))
