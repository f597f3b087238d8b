"""The store: whole trees of the newest 64 versions, honest replies, and proofs of batches."""

import functools

from .binding import bind
from .catalog import Catalog, CatalogTable, record_of
from .faults import EntriesFault, EntryFault, StoreFault, UpdateFault
from .formats import PROOFS_LIMIT, REPLY_LIMIT, read_entries, write_proofs, write_reply
from .lms import PublicKey, signed_by_leaf
from .plan import MAIN, Plan, run_plan
from .syntax import Create, Delete, Drop, INDEX, Insert
from .tables import catalog_refusal, schema_of
from .changes import do_op, found_entry, prune_update
from .scans import prune
from .totals import prune_totals
from .tree import digest_of, empty_totals, empty_tree
from .work import main_op, new_part, side_ops

KEPT = 64


class Trees:
    """The honest trees of all tables: per name the schema, the number of
    rows, the main tree and the side trees.  It answers the questions of
    `catalog_refusal`."""

    def __init__(self, by_name=None):
        self.by_name = dict(by_name or {})

    def copy(self):
        """Trees of its own that are the same."""
        return Trees(self.by_name)

    def schema(self, name):
        """A table's schema, or None."""
        found = self.by_name.get(name)
        return found[0] if found else None

    def row_count(self, name):
        """How many rows a table has."""
        return self.by_name[name][1]

    def table_count(self):
        """How many tables there are."""
        return len(self.by_name)

    def tree(self, place):
        """The tree at (table name, MAIN or Side)."""
        schema, _, main, sides = self.by_name[place[0]]
        return main if place[1] == MAIN else sides[schema.sides.index(place[1])]

    def catalog(self):
        """The catalog of these trees."""
        return Catalog({
            name: CatalogTable(schema, rows, digest_of(main),
                               tuple(digest_of(side) for side in sides))
            for name, (schema, rows, main, sides) in self.by_name.items()})

    def command(self, command, proofs):
        """Makes one command's work; its proofs are added to the list `proofs`
        (None: not made).  Gives the name of the refusal, or None."""
        refusal = catalog_refusal(self, command)
        if refusal:
            return refusal
        if isinstance(command, Create):
            schema = schema_of(command)
            sides = tuple(empty_tree() if s.kind == INDEX else empty_totals()
                          for s in schema.sides)
            self.by_name[command.name] = (schema, 0, empty_tree(), sides)
            return None
        if isinstance(command, Drop):
            del self.by_name[command.name]
            return None
        return self._row_command(command, proofs)

    def _row_command(self, command, proofs):
        schema, rows, main, sides = self.by_name[command.name]
        op = main_op(schema, command)
        if proofs is not None:
            proofs.append(prune_update(main, op))
        try:
            changed = do_op(main, op)
        except UpdateFault as fault:
            return fault.name
        old = found_entry(main, op.key)
        sides = list(sides)
        part = new_part(op, old and old.part)
        for number, work in side_ops(schema, command, old and old.part, part):
            if proofs is not None:
                proofs.append(prune_update(sides[number], work))
            sides[number] = do_op(sides[number], work)
        change = isinstance(command, Insert) - isinstance(command, Delete)
        self.by_name[command.name] = (schema, rows + change, changed, tuple(sides))
        return None

    def batch(self, commands, proofs=None):
        """(the trees after the batch, None), or (None, (index, refusal))."""
        twin = self.copy()
        for index, command in enumerate(commands):
            refusal = twin.command(command, proofs)
            if refusal:
                return None, (index, refusal)
        return twin, None


class Version:
    """An installed version."""

    def __init__(self, rec, signature, trees):
        self.rec, self.signature, self.trees = rec, signature, trees
        self.catalog = trees.catalog()


def reply_of(version, query):
    """The canonical reply of a version to a query."""
    bound = bind(version.catalog, query)
    pruned = []
    if bound.fault is None:
        plan = Plan(bound)
        whole = [version.trees.tree(place) for place in plan.places]
        needs = run_plan(plan, whole).needs
        make = prune_totals if plan.totals else prune
        pruned = [make(tree, need) for tree, need in zip(whole, needs)]
    return write_reply(version.rec, version.signature, version.catalog, pruned)


class Store:
    """The trees of the newest versions, and a proposed batch."""

    def __init__(self, key):
        self.key = key
        self.kept = []                       # the newest versions, oldest first
        self.pending = Trees()               # of a new store: version 0

    @staticmethod
    def load(key, entries):
        """Entry 0 by install, a later one by propose and install."""
        store = Store(key)
        for index, entry in enumerate(entries):
            try:
                if index:
                    store.propose(entry.batch)
                store.install(entry.rec, entry.signature)
            except StoreFault:
                raise EntryFault("Entry", index=index) from None
        return store

    def copy(self):
        """A store of its own that stands at the same versions."""
        twin = Store(self.key)
        twin.kept, twin.pending = list(self.kept), self.pending
        return twin

    def version(self):
        """The newest version, or None."""
        return self.kept[-1].rec.version if self.kept else None

    def standing(self):
        """The newest record, or None."""
        return self.kept[-1].rec if self.kept else None

    def trees(self):
        """The trees of the newest version."""
        return self.kept[-1].trees

    def propose(self, commands):
        """The honest proofs; Empty, TooLarge{length}, Command{index, fault,
        proofs}.  A refused proposal leaves the pending one."""
        if not self.kept:
            raise StoreFault("Empty")
        proofs = []
        trees, refused = self.kept[-1].trees.batch(commands, proofs)
        data = write_proofs(proofs)
        if len(data) > PROOFS_LIMIT:
            raise StoreFault("TooLarge", length=len(data))
        if refused:
            raise StoreFault("Command", index=refused[0], fault=refused[1], proofs=data)
        self.pending = trees
        return data

    def install(self, rec, signature):
        """NothingProposed, WrongRecord{want, got}, BadSignature."""
        if self.pending is None:
            raise StoreFault("NothingProposed")
        version = self.version() + 1 if self.kept else 0
        want = record_of(self.key.ident, version, self.pending.catalog())
        if rec != want:
            raise StoreFault("WrongRecord", want=want, got=rec)
        if not signed_by_leaf(self.key, version, rec.bytes(), signature):
            raise StoreFault("BadSignature")
        self.kept = (self.kept + [Version(rec, bytes(signature), self.pending)])[-KEPT:]
        self.pending = None

    def answer(self, query):
        """Empty, TooLarge{length}."""
        if not self.kept:
            raise StoreFault("Empty")
        return self.answer_at(self.version(), query)

    def answer_at(self, version, query):
        """Empty, NoVersion{version, oldest, newest}, TooLarge{length}."""
        if not self.kept:
            raise StoreFault("Empty")
        newest = self.version()
        oldest = max(0, newest - (KEPT - 1))
        if not oldest <= version <= newest:
            raise StoreFault("NoVersion", version=version, oldest=oldest, newest=newest)
        reply = reply_of(self.kept[version - newest - 1], query)
        if len(reply) > REPLY_LIMIT:
            raise StoreFault("TooLarge", length=len(reply))
        return reply


def load_journal(key, journal):
    """The store that has loaded a journal; Entry{index}: the first entry that it doesn't take."""
    return _loaded(key.bytes(), bytes(journal)).copy()


@functools.lru_cache(maxsize=16)
def _loaded(key, journal):
    """That store, made once of the same bytes."""
    damaged = None
    try:
        entries = read_entries(journal)
    except EntriesFault as fault:
        entries, damaged = fault.entries, fault.index
    store = Store.load(PublicKey.read(key), entries)
    if damaged is not None:
        raise EntryFault("Entry", index=damaged)
    return store
