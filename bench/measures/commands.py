"""Commands on a table of numbers and names, as text, and the blocks of SHA-256 that each takes by its proof."""
from measures.costs import blocks, inner_blocks, leaf_blocks, proofs_and_rest, row_blocks
from measures.replies import number_at, row_part

CREATE = "CREATE TABLE t (id BIGINT, name TEXT, PRIMARY KEY (id))"
LEAST_IN_NODE, MOST_IN_NODE = 8, 16


def insert(number):
    return f"INSERT INTO t VALUES ({number}, 'name {number}');\n"


def update(number):
    return f"UPDATE t SET name = 'new {number}' WHERE id = {number};\n"


def delete(number):
    return f"DELETE FROM t WHERE id = {number};\n"


# -- the blocks of a change, by its proof: the nodes that its work looks at

class Node:
    """An open node of a proof: a leaf by its count, an inner node with its separators and children, of which most are closed."""

    def __init__(self, count, separators=None, children=None):
        self.count, self.separators, self.children = count, separators, children

    def blocks(self, count):
        return leaf_blocks(count) if self.children is None else inner_blocks(count)


def node_at(data, at):
    """Where a part tree ends, and its root, if it is open."""
    if data[at] == 0:
        return at + 33, None
    kind, count, at, keys = data[at], data[at + 1], at + 2, []
    for _ in range(count if kind == 1 else count - 1):
        size = number_at(data, at, 2)
        keys.append(data[at + 2:at + 2 + size])
        at += 2 + size
        if kind == 1:
            at, _ = row_part(data, at)
    if kind == 1:
        return at, Node(count)
    children = []
    for _ in range(count):
        at, child = node_at(data, at)
        children.append(child)
    return at, Node(count, keys, children)


def proofs_of(entry):
    """The roots of an entry's proofs."""
    data = proofs_and_rest(entry)[0]
    count, at, roots = number_at(data, 4, 2), 6, []
    for _ in range(count):
        at, root = node_at(data, at)
        roots.append(root)
    return roots


def key_of(number):
    return (number + 2 ** 63).to_bytes(8, "big")


def place(node, key):
    """The child whose span has the key."""
    return next((at for at, separator in enumerate(node.separators) if key < separator), node.count - 1)


def path_blocks(node, key):
    """Each node of the path, none of which changes its count."""
    below = 0 if node.children is None else path_blocks(node.children[place(node, key)], key)
    return below + node.blocks(node.count)


def insertion(node, key):
    """How many nodes stand for the node with one entry more, and the blocks of all that are new."""
    grown, below = (1, 0) if node.children is None else insertion(node.children[place(node, key)], key)
    count = node.count + (1 if node.children is None else grown - 1)
    if count <= MOST_IN_NODE:
        return 1, below + node.blocks(count)
    return 2, below + node.blocks(LEAST_IN_NODE) + node.blocks(count - LEAST_IN_NODE)


def insertion_blocks(root, key):
    nodes, needed = insertion(root, key)
    return needed + (inner_blocks(2) if nodes == 2 else 0)


def removal(node, key):
    """The count of the node with one entry less, and the blocks of what is new below it."""
    if node.children is None:
        return node.count - 1, 0
    at = place(node, key)
    child = node.children[at]
    count, needed = removal(child, key)
    if count >= LEAST_IN_NODE:
        return node.count, needed + child.blocks(count)
    beside = node.children[at - 1 if at else 1].count
    if beside > LEAST_IN_NODE:
        return node.count, needed + child.blocks(LEAST_IN_NODE) + child.blocks(beside - 1)
    return node.count - 1, needed + child.blocks(count + beside)


def removal_blocks(root, key):
    count, needed = removal(root, key)
    gives_way = root.children is not None and count == 1
    return needed + (0 if gives_way else root.blocks(count))


def changed_row_blocks(kind, cells):
    """A new row of so many cells, or one of which a cell is new."""
    return row_blocks(cells) if kind == "insert" else 1 + blocks(2 + 32 * cells)


def command_blocks(command, root, cells=1):
    """Those of a command with this proof: the row where it is new, the changed cell and the row, and the nodes."""
    kind, number = command
    key = key_of(number)
    if kind == "insert":
        return changed_row_blocks(kind, cells) + insertion_blocks(root, key)
    if kind == "update":
        return changed_row_blocks(kind, cells) + path_blocks(root, key)
    return removal_blocks(root, key)


def open_blocks(node):
    """All open nodes of a proof as it came."""
    below = sum(open_blocks(child) for child in node.children or [] if child is not None)
    return below + node.blocks(node.count)


def followed_blocks(commands, entry, cells=1):
    """Those of the proofs' nodes, and the rows that are open there, before and after each command."""
    needed = 0
    for command, root in zip(commands, proofs_of(entry)):
        opened = blocks(2 + 32 * cells) if command[0] == "update" else 0
        needed += open_blocks(root) + opened + command_blocks(command, root, cells)
    return needed


# -- batches

SPELLING = {"insert": insert, "update": update, "delete": delete}


def batch_text(commands):
    return "".join(SPELLING[kind](number) for kind, number in commands)


def in_batches(commands):
    return [commands[at:at + 1_000] for at in range(0, len(commands), 1_000)]
