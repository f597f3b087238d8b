"""Texts of queries, batches and scripts: tokens, grammar, the order of faults."""

from .faults import SqlFault
from .stages import has
from .syntax import (
    All, Any, Column, Count, Create, Delete, Drop, INDEX, Insert, IsNull, Join, Not, QueryText,
    Ref, Refs, SUM, SideColumn, Source, Star, Sum, Test, Totals, Update)
from .tokens import tokens_of
from .values import BOOL, INT, NULL, TEXT

COMMAND_WORDS = ("create", "drop", "insert", "update", "delete")
OPS = {"=", "<>", "<", "<=", ">", ">="}
KINDS = {"bigint": INT, "text": TEXT, "boolean": BOOL}
QUERY_LIMIT, SCRIPT_LIMIT = 65_536, 16_777_216
NESTING, ITEMS, VALUES, COLUMNS, SIDES, COMMANDS = 32, 64, 32, 32, 32, 1_000


class Parser:
    """Reads the grammar token by token; each fault is at the first token
    that no text of the grammar has at its place."""

    def __init__(self, data):
        self.size = len(data)
        self.tokens = tokens_of(data)
        self.place = 0
        self.depth = 0

    # -- single tokens
    def peek(self):
        """The token that stands next, or None."""
        return self.tokens[self.place] if self.place < len(self.tokens) else None

    def here(self):
        """Where that begins, or the text's length."""
        token = self.peek()
        return self.size if token is None else token.at

    def syntax(self):
        """The fault of a token that doesn't belong here."""
        return SqlFault("Syntax", at=self.here())

    def is_word(self, word):
        """Whether this keyword stands next."""
        token = self.peek()
        return token is not None and token.kind == "word" and token.value == word

    def is_symbol(self, symbol):
        """Whether this symbol stands next."""
        token = self.peek()
        return token is not None and token.kind == "symbol" and token.value == symbol

    def is_name(self):
        """Whether a name stands next."""
        token = self.peek()
        return token is not None and token.kind == "name"

    def next(self):
        """Takes the next token."""
        token = self.peek()
        if token is None:
            raise self.syntax()
        self.place += 1
        return token

    def word(self, word):
        """Takes this keyword."""
        if not self.is_word(word):
            raise self.syntax()
        return self.next()

    def symbol(self, symbol):
        """Takes this symbol."""
        if not self.is_symbol(symbol):
            raise self.syntax()
        return self.next()

    def name(self):
        """Takes a name."""
        if not self.is_name():
            raise self.syntax()
        return self.next().value

    def accept_word(self, word):
        """Takes this keyword, if it stands next."""
        if self.is_word(word):
            self.place += 1
            return True
        return False

    def accept_symbol(self, symbol):
        """Takes this symbol, if it stands next."""
        if self.is_symbol(symbol):
            self.place += 1
            return True
        return False

    def comma(self, count, limit):
        """Whether a comma follows; TooMany at the comma after the limit-th."""
        if not self.is_symbol(","):
            return False
        if count >= limit:
            raise SqlFault("TooMany")
        self.place += 1
        return True

    # -- queries
    def query(self):
        """SELECT items FROM source [ join ] [ WHERE cond ] [ LIMIT count ] [ ; ]"""
        self.word("select")
        items = self.items()
        self.word("from")
        left = self.source()
        join = None
        totals = isinstance(items, Totals)
        if not totals and (self.is_word("inner") or self.is_word("join")):
            join = self.join()
        cond = self.cond() if self.accept_word("where") else None
        limit = None
        if has("limit") and not totals and join is None and self.accept_word("limit"):
            limit = self.limit()
        self.accept_symbol(";")
        if self.peek() is not None:
            raise self.syntax()
        return QueryText(items, left, join, cond, limit)

    def limit(self):
        """A count from 1 on."""
        token = self.peek()
        if token is None or token.kind != "integer" or not 1 <= token.value <= 4_294_967_295:
            raise self.syntax()
        return self.next().value

    def items(self):
        """* or refs, or totals."""
        if self.accept_symbol("*"):
            return Star()
        if has("totals") and (self.is_word("count") or self.is_word("sum")):
            return Totals(self.listed(self.agg))
        return Refs(self.listed(self.ref))

    def listed(self, part):
        """part { , part }"""
        parts = [part()]
        while self.comma(len(parts), ITEMS):
            parts.append(part())
        return tuple(parts)

    def agg(self):
        """COUNT ( * ) or SUM ( ref )"""
        if self.accept_word("count"):
            self.symbol("(")
            self.symbol("*")
            self.symbol(")")
            return Count()
        self.word("sum")
        self.symbol("(")
        ref = self.ref()
        self.symbol(")")
        return Sum(ref)

    def ref(self):
        """name [ . name ]"""
        first = self.name()
        if self.accept_symbol("."):
            return Ref(first, self.name())
        return Ref(None, first)

    def source(self):
        """name [ [AS] name ]"""
        table = self.name()
        if self.accept_word("as"):
            return Source(table, self.name())
        if self.is_name():
            return Source(table, self.name())
        return Source(table, table)

    def join(self):
        """[INNER] JOIN source ON ref = ref"""
        self.accept_word("inner")
        self.word("join")
        right = self.source()
        self.word("on")
        left_ref = self.ref()
        self.symbol("=")
        return Join(right, left_ref, self.ref())

    # -- conditions
    def cond(self):
        """conj { OR conj }"""
        parts = [self.conj()]
        while self.accept_word("or"):
            parts.append(self.conj())
        return parts[0] if len(parts) == 1 else Any(tuple(parts))

    def conj(self):
        """prim { AND prim }"""
        parts = [self.prim()]
        while self.accept_word("and"):
            parts.append(self.prim())
        return parts[0] if len(parts) == 1 else All(tuple(parts))

    def open_level(self):
        """Takes a NOT or a parenthesis, a level deeper."""
        if self.depth >= NESTING:
            raise SqlFault("Nesting")
        self.depth += 1
        self.place += 1

    def prim(self):
        """NOT prim, ( cond ), or a test."""
        if self.is_word("not"):
            self.open_level()
            part = self.prim()
            self.depth -= 1
            return Not(part)
        if self.is_symbol("("):
            self.open_level()
            part = self.cond()
            self.symbol(")")
            self.depth -= 1
            return part
        return self.test()

    def test(self):
        """ref compare ref, ref compare literal, or ref IS [NOT] NULL"""
        left = self.ref()
        if has("nulls") and self.accept_word("is"):
            negated = self.accept_word("not")
            self.word("null")
            return IsNull(left, negated)
        token = self.peek()
        if token is None or token.kind != "symbol" or token.value not in OPS:
            raise self.syntax()
        op = self.next().value
        if self.is_name():
            return Test(left, op, self.ref())
        return Test(left, op, self.literal())

    def literal(self):
        """An integer, a string, TRUE, FALSE or NULL."""
        token = self.peek()
        if token is not None:
            if token.kind == "integer":
                return (INT, self.next().value)
            if token.kind == "string":
                return (TEXT, self.next().value)
            if token.kind == "word" and token.value in ("true", "false"):
                return (BOOL, 1 if self.next().value == "true" else 0)
            if has("nulls") and token.kind == "word" and token.value == "null":
                self.place += 1
                return NULL
        raise self.syntax()

    # -- commands
    def at_command(self):
        """Whether a command begins here."""
        return any(self.is_word(word) for word in COMMAND_WORDS)

    def command(self):
        """A command without its semicolon."""
        if not self.at_command():
            raise self.syntax()
        if self.accept_word("create"):
            return self.create()
        if self.accept_word("drop"):
            self.word("table")
            return Drop(self.name())
        if self.accept_word("insert"):
            return self.insert()
        if self.accept_word("update"):
            return self.update()
        self.word("delete")
        self.word("from")
        name = self.name()
        return Delete(name, *self.where_key())

    def where_key(self):
        """WHERE name = literal"""
        self.word("where")
        column = self.name()
        self.symbol("=")
        return column, self.literal()

    def create(self):
        """TABLE name ( columns , PRIMARY KEY ( name ) [ sides ] )"""
        self.word("table")
        name = self.name()
        self.symbol("(")
        columns = [self.column()]
        while True:
            self.symbol(",")
            if self.is_word("primary"):
                break
            if self.is_name() and len(columns) >= COLUMNS:
                raise SqlFault("TooMany")
            columns.append(self.column())
        self.word("primary")
        self.word("key")
        self.symbol("(")
        key = self.name()
        self.symbol(")")
        sides = self.sides()
        self.symbol(")")
        return Create(name, tuple(columns), key, sides)

    def sides(self):
        """{ , INDEX ( name ) } { , SUM ( name ) }."""
        sides = []
        while has("indexes") and self.comma(len(sides), SIDES):
            if self.is_word("index") and not (sides and sides[-1].kind == SUM):
                kind = INDEX
            elif has("totals") and self.is_word("sum"):
                kind = SUM
            else:
                raise self.syntax()
            self.place += 1
            self.symbol("(")
            sides.append(SideColumn(kind, self.name()))
            self.symbol(")")
        return tuple(sides)

    def column(self):
        """name kind [ [NOT] NULL ]"""
        name = self.name()
        token = self.peek()
        if token is None or token.kind != "word" or token.value not in KINDS:
            raise self.syntax()
        kind = KINDS[self.next().value]
        if self.accept_word("not"):
            self.word("null")
            return Column(name, kind, False)
        return Column(name, kind, has("nulls") and self.accept_word("null"))

    def insert(self):
        """INTO name VALUES ( literals )"""
        self.word("into")
        name = self.name()
        self.word("values")
        self.symbol("(")
        values = [self.literal()]
        while self.comma(len(values), VALUES):
            values.append(self.literal())
        self.symbol(")")
        return Insert(name, tuple(values))

    def update(self):
        """name SET parts WHERE name = literal"""
        name = self.name()
        self.word("set")
        sets = [self.set_part()]
        while self.comma(len(sets), VALUES):
            sets.append(self.set_part())
        return Update(name, tuple(sets), *self.where_key())

    def set_part(self):
        """name = literal"""
        column = self.name()
        self.symbol("=")
        return (column, self.literal())

    # -- batches
    def batch(self):
        """command ; { command ; } up to a token that begins no command."""
        commands = []
        while True:
            if commands and not self.at_command():
                return tuple(commands)
            if self.at_command() and len(commands) >= COMMANDS:
                raise SqlFault("TooMany")
            commands.append(self.command())
            self.symbol(";")

    def script(self):
        """{ batch COMMIT ; }"""
        batches, start = [], 0
        while self.peek() is not None:
            commands = self.batch()
            self.word("commit")
            if self.is_symbol(";") and self.here() - start > QUERY_LIMIT:
                raise SqlFault("TooLong")
            start = self.symbol(";").end
            batches.append(commands)
        return batches


def _data(text, limit):
    data = text.encode("utf-8") if isinstance(text, str) else bytes(text)
    if len(data) > limit:
        raise SqlFault("TooLong")
    return data


def parse_query(text):
    """The query of a text, or SqlFault."""
    return Parser(_data(text, QUERY_LIMIT)).query()


def parse_batch(text):
    """The commands of a text, or SqlFault."""
    parser = Parser(_data(text, QUERY_LIMIT))
    commands = parser.batch()
    if parser.peek() is not None:
        raise parser.syntax()
    return commands


def parse_script(text):
    """The batches of a text, or SqlFault."""
    return Parser(_data(text, SCRIPT_LIMIT)).script()
