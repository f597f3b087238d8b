"""Lines of crates/tree_lines, each with the answer due by the independent implementation.

A line is a word and byte strings in hexadecimal; a part tree is given as a node or as bytes, which may be none.
"""
from lines import forms
from reference import changes, overlaps, scans, tree as trees
from reference.changes import do_op, found_entry, is_update_proof, prune_update
from reference.faults import BatchFault, CommandFault, Fault
from reference.formats import batch_bytes, read_tree, tree_bytes
from reference.syntax import Create, Drop
from reference.tables import Tables, apply, catalog_refusal
from reference.tree import digest_of, empty_tree, entries_of, spelled_key
from reference.values import Cursor, value_bytes
from reference.work import main_op

# What is done with counted trees, each at the place of its byte; to hide is to put a stub before the tree.
COUNTED = ["find", "tput", "tset", "remove", "hide"]


# -- byte strings

def change_bytes(op):
    front = bytes([["insert", "replace", "remove"].index(op.name) + 1]) + spelled_key(op.key)
    if op.name == "insert":
        return front + bytes([len(op.cells)]) + b"".join(value_bytes(value) for value in op.cells)
    if op.name == "replace":
        return front + bytes([len(op.sets)]) + b"".join(bytes([column]) + value_bytes(value) for column, value in op.sets)
    return front


def bound_bytes(bound):
    return b"\0" if bound is None else bytes([1 if bound[1] else 2]) + spelled_key(bound[0])


def need_bytes(need):
    low, high = need.interval
    return bound_bytes(low) + bound_bytes(high) + bytes([len(need.columns), *sorted(need.columns)])


def part_bytes(part):
    return part if isinstance(part, bytes) else tree_bytes(part)


def line(word, *strings):
    return " ".join([word, *(string.hex() for string in strings)])


# -- part trees

def value_or_fault(work):
    """What a call answers, a fault by its name."""
    try:
        return work()
    except Fault as fault:
        return fault.name


def read_whole(data):
    cursor = Cursor(data)
    tree = read_tree(cursor)
    cursor.end()
    return tree


def part_line(word, show, part, *strings):
    """A line on a part tree, whose answer is shown of it where it is one."""
    data = part_bytes(part)
    return line(word, *strings, data), value_or_fault(lambda: show(read_whole(data)))


def digest(part):
    return part_line("digest", lambda tree: digest_of(tree).hex(), part)


def preimage(part):
    return part_line("preimage", lambda tree: "" if isinstance(tree, trees.Stub) else tree.preimage().hex(), part)


def read(part):
    return part_line("read", lambda tree: tree_bytes(tree).hex(), part)


def change_tree(tree, op):
    """The tree after a change, which passes over the cells that the row hasn't."""
    found = found_entry(tree, op.key)
    if op.name == "replace" and found is not None and not isinstance(found.part, bytes):
        op = changes.Op(op.name, op.key, sets=[(column, value) for column, value in op.sets if column < len(found.part)])
    return do_op(tree, op)


def change_tree_in_turn(tree, ops):
    for op in ops:
        tree = change_tree(tree, op)
    return tree


def work(op, part):
    return part_line("work", lambda tree: tree_bytes(change_tree(tree, op)).hex(), part, change_bytes(op))


def after(ops, part):
    return part_line("after", lambda tree: digest_of(change_tree_in_turn(tree, ops)).hex(), part, b"".join(map(change_bytes, ops)))


def without_missing_cells(op):
    """The change without what it sets, by which no proof goes."""
    return changes.Op(op.name, op.key, cells=op.cells)


def update_proof(tree, op):
    return prune_update(tree, without_missing_cells(op))


def judge(op, part):
    return part_line("judge", lambda tree: "yes" if is_update_proof(tree, without_missing_cells(op)) else "no", part, change_bytes(op))


def seen_rows(need, tree):
    rows = scans.scan(tree, need)
    return forms.list_of(forms.row(key, [values[column] for column in sorted(values)]) for key, values in rows)


def scan(need, part):
    return part_line("scan", lambda tree: seen_rows(need, tree), part, need_bytes(need))


def canonical(needs, part):
    return part_line("canonical", lambda tree: "yes" if scans.is_canonical(tree, needs) else "no", part,
                     b"".join(map(need_bytes, needs)))


# -- two part trees

def two_parts_line(word, show, first, second):
    """A line on two part trees, whose answer is shown of them where both are ones."""
    parts = part_bytes(first), part_bytes(second)
    return line(word, *parts), value_or_fault(lambda: show(*map(read_whole, parts)))


def same(first, second):
    return two_parts_line("same", lambda one, other: "same" if tree_bytes(one) == tree_bytes(other) else "different", first, second)


def walks(first, second):
    """Two of one digest are parts of one tree, as long as nobody has two strings of one digest."""
    return two_parts_line("walks", lambda one, other: "one walk" if digest_of(one) == digest_of(other) else "another digest",
                          first, second)


def twins(needs, first, second):
    """Two of one digest, each the proof of the needs, are the same."""
    data = part_bytes(first) + part_bytes(second)

    def told():
        cursor = Cursor(data)
        one, other = read_tree(cursor), read_tree(cursor)
        cursor.end()
        if digest_of(one) != digest_of(other):
            return "another digest"
        are_proofs = scans.is_canonical(one, needs) and scans.is_canonical(other, needs)
        return "one proof" if are_proofs else "no proof"
    return line("twins", b"".join(map(need_bytes, needs)), data), value_or_fault(told)


# -- trees that count their entries

class CountedChanges:
    """Changes in turn of a tree of numbers that counts its entries."""

    def __init__(self):
        self.tree, self.strings, self.answers = trees.empty_totals(), [], []

    def do(self, kind, number, value=0):
        """A change, or a search, by its word."""
        self.strings.append(bytes([COUNTED.index(kind)]) + number.to_bytes(4, "big") + bytes([value]))
        self.answers.append(str(value_or_fault(lambda: self.done(kind, number.to_bytes(4, "big"), value))))

    def done(self, kind, key, value):
        if kind == "find":
            changes.change_entry(self.tree, key, lambda entry: entry)
            return changes.found_entry(self.tree, key).value
        if kind == "hide":
            self.tree = trees.TInner([key], [trees.TChild(value, 0, trees.Stub(bytes(32))), trees.TInner.slot(self.tree)])
        else:
            self.tree = do_op(self.tree, changes.Op(kind, key, value=value))
        return trees.totals_held(self.tree)[0]

    def line(self):
        return line("counted", b"".join(self.strings)), forms.list_of(self.answers)


# -- the tree of a table

def count_and_digest(tree):
    return f"{len(entries_of(tree))} {digest_of(tree).hex()}"


def root(tree):
    return line("root"), f"{count_and_digest(tree)} {tree.preimage().hex()}"


def change(tree, op):
    return line("change", change_bytes(op)), f"{value_or_fault(lambda: count_and_digest(change_tree(tree, op)))} of {count_and_digest(tree)}"


def prove(tree, op):
    return line("prove", change_bytes(op)), tree_bytes(update_proof(tree, op)).hex()


def prune(tree, needs):
    return line("prune", b"".join(map(need_bytes, needs))), tree_bytes(scans.prune(tree, needs)).hex()


def agree(tree, part):
    def agreed(read_part):
        if digest_of(read_part) != digest_of(tree):
            return "another digest"
        return "prunes" if overlaps.agree(read_part, tree) is None else "collides"
    return part_line("agree", agreed, part)


# -- tables

class Twin:
    """Tables as the program has them: each plain, and as its tree."""

    def __init__(self):
        self.plain, self.trees = Tables(), {}

    @property
    def tree(self):
        return self.trees["t"]

    def do(self, command):
        """Applies a command, or refuses it."""
        name, schema = command.name, self.plain.schema(command.name)
        apply(self.plain, command)
        if isinstance(command, Create):
            self.trees[name] = empty_tree()
        elif isinstance(command, Drop):
            del self.trees[name]
        else:
            self.trees[name] = do_op(self.trees[name], main_op(schema, command))

    def do_all(self, commands):
        """Applies a batch, all of it or nothing."""
        new = Twin()
        new.plain, new.trees = self.plain.copy(), dict(self.trees)
        for index, command in enumerate(commands):
            try:
                new.do(command)
            except CommandFault as fault:
                raise BatchFault(forms.refusal(index, fault.name)) from None
        self.plain, self.trees = new.plain, new.trees

    def fault(self, command):
        """Why a command is refused; one that isn't is applied."""
        try:
            self.do(command)
        except CommandFault as fault:
            return fault.name
        return None

    # the lines

    def clear(self):
        self.plain, self.trees = Tables(), {}
        return "clear", "cleared"

    def apply(self, commands):
        def applied():
            self.do_all(commands)
            return digest_of(self.tree).hex() if "t" in self.trees else "no table"
        return line("apply", batch_bytes(commands)), value_or_fault(applied)

    def step(self, commands):
        faults = [self.fault(command) or "none" for command in commands]
        return line("step", batch_bytes(commands)), forms.list_of(faults)

    def refusal(self, commands):
        faults = [catalog_refusal(self.plain, command) or "none" for command in commands]
        return line("refusal", batch_bytes(commands)), forms.list_of(faults)

    def proof(self, commands):
        """The proof of the one command of a batch."""
        command, = commands
        given, name = line("proof", batch_bytes(commands)), command.name
        if isinstance(command, (Create, Drop)) or name not in self.trees:
            return given, "none"
        return given, tree_bytes(prune_update(self.trees[name], main_op(self.plain.schema(name), command))).hex()

    def catalog(self):
        tables = [forms.form("table", forms.octets(name), str(len(entries_of(self.trees[name]))),
                             forms.octets(digest_of(self.trees[name]))) for name in self.plain.names()]
        return line("catalog"), forms.list_of(tables)

    def rows(self):
        if "t" not in self.trees:
            return line("rows"), "no table"
        table = self.plain.by_name["t"]
        return line("rows"), forms.list_of(map(forms.row, table.keys, table.cells))
