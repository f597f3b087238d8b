"""The program: its words, the order of its work, its lines and statuses."""

import sys

from .audit import audit, meet
from .check import Client, check_of
from .faults import (
    AuditFault, CheckFault, EntryFault, Failed, JournalFault, KeyFault, MeetFault,
    OwnerFault, SqlFault, StoreFault, TooLongFile, WireFault)
from .formats import read_entries
from .gen import gen_lines
from .histories import History
from .journal import Journal
from .lines import (
    owner_stop, seal_refused, wire_stop, answer_lines, fault_words, forged_lines,
    lines_bytes, sql_words)
from .lms import PublicKey, SecretKey
from .outside_real import FileDisk, RealShelf, RealSink, TcpNet
from .owner import Owner, replay
from .sql import parse_query, parse_script
from .store import load_journal
from .wire import ask_at_link, ask_link, install_link, propose_link, serve_link, status_link
from .words import Stop, parse_words

LIMITS = {"SEED": 48, "PUB": 64, "SQLFILE": 16_777_216, "JOURNAL": 1_073_741_824,
          "REPLY": 67_108_865}


class OutputFailed(Exception):
    """A put on the output failed: the status is 3 and nothing more is put."""


class Program:
    """One run over the objects of the outside."""

    def __init__(self, words, files, disk, net, out):
        self.files, self.disk, self.net, self.out = files, disk, net, out
        self.command, self.words = parse_words(words)

    def go(self):
        """The bytes to write at the end with status 0, or Stop."""
        return getattr(self, self.command)()

    # -- files and query, in the order of the words
    def take(self, name, kind=None):
        """A file's bytes."""
        word = self.words[name]
        try:
            return self.files.take(word, LIMITS[kind or name])
        except Failed:
            raise Stop(3, "fault: outside") from None
        except TooLongFile:
            raise Stop(2, f"refused: file too long {word}") from None

    def seed_file(self, name="SEED"):
        """The secret key of a seed file."""
        data = self.take(name, "SEED")
        if len(data) != 48:
            raise Stop(2, f"refused: seed file {len(data)}")
        return SecretKey(data[:16], data[16:], 4, self.words.get("height", 5),
                         self.words.get("levels", 1))

    def public_key(self):
        """The public key of its file."""
        try:
            return PublicKey.read(self.take("PUB"))
        except KeyFault:
            raise Stop(2, "refused: key file") from None

    def parsed(self, parse, text):
        """What a text stands for."""
        try:
            return parse(text)
        except SqlFault as fault:
            raise Stop(2, "refused: sql " + sql_words(fault)) from None

    def query(self):
        """The query of the words."""
        return self.parsed(parse_query, self.words["QUERY"])

    def script(self):
        """The batches of the script's file."""
        data = self.take("SQLFILE")
        try:
            text = data.decode("utf-8")
        except UnicodeDecodeError:
            raise Stop(2, "refused: not text") from None
        return self.parsed(parse_script, text)

    # -- commands that make their output whole
    def keygen(self):
        """The public key of a seed file."""
        return self.seed_file().public().bytes()

    def seal(self):
        """The journal of a script."""
        key = self.seed_file()
        batches = self.script()
        history = History(key)
        for batch in batches:
            try:
                history.commit(batch)
            except OwnerFault as fault:
                raise owner_stop(fault) from None
            except StoreFault as fault:
                raise seal_refused(fault) from None
        return history.journal_bytes()

    def answer(self):
        """The reply to a query by a journal."""
        key = self.public_key()
        journal = self.take("JOURNAL")
        query = self.query()
        store = self.loaded(key, journal)
        if store.version() is None:
            raise Stop(7, "bad journal 0")
        try:
            return store.answer_at(self.words.get("at", store.version()), query)
        except StoreFault as fault:
            if fault.name == "TooLarge":
                raise Stop(1, f"refused: too large {fault.length}") from None
            raise Stop(1, f"refused: no version {fault.version} {fault.oldest} "
                          f"{fault.newest}") from None

    def loaded(self, key, journal):
        """The store that has loaded a journal."""
        try:
            return load_journal(key, journal)
        except EntryFault as fault:
            raise Stop(7, f"bad journal {fault.index}") from None

    def check(self):
        """The lines of a checked reply."""
        key = self.public_key()
        query = self.query()
        reply = self.take("REPLY")
        try:
            answer = check_of(key, self.words.get("least", 0), query, reply)
        except CheckFault as fault:
            raise Stop(1, "refused: " + fault_words(fault)) from None
        return lines_bytes(answer_lines(answer))

    def audit(self):
        """What a reply is worth by a journal."""
        key = self.public_key()
        journal = self.take("JOURNAL")
        query = self.query()
        reply = self.take("REPLY")
        secret = None
        if "seed" in self.words:
            secret = self.seed_file("seed")
            if secret.public() != key:
                raise Stop(2, "refused: seed of another key")
        try:
            verdict = audit(key, journal, query, reply)
        except AuditFault as fault:
            if fault.name == "BadJournal":
                raise Stop(7, f"bad journal {fault.index}") from None
            raise Stop(1, "refused: " + fault_words(fault.fields["fault"])) from None
        if verdict[0] == "exact":
            return lines_bytes([f"exact version {verdict[1]}"])
        if verdict[0] == "collides":
            raise Stop(5, "collision", verdict[1].hex(), verdict[2].hex())
        _, rec, signature, last = verdict
        more = []
        if secret is not None:
            more = forged_lines(secret, [e.rec for e in read_entries(journal)], rec, signature)
        raise Stop(6, "unsigned", rec.bytes().hex(), signature.hex(),
                   f"journal ends at version {last}", *more)

    def meet(self):
        """What two replies are to each other."""
        key = self.public_key()
        query = self.query()
        first = self.take("FIRST", "REPLY")
        second = self.take("SECOND", "REPLY")
        try:
            found = meet(key, query, first, second)
        except MeetFault as fault:
            raise Stop(1, f"refused {fault.name.lower()}: "
                          + fault_words(fault.fields["fault"])) from None
        if found[0] == "apart":
            return lines_bytes([f"apart {found[1]} {found[2]}"])
        if found[0] == "same":
            return lines_bytes([f"same {found[1]}"])
        if found[0] == "collides":
            raise Stop(5, "collision", found[1].hex(), found[2].hex())
        raise Stop(6, "two records", *[x for rec, signature in found[1:]
                                       for x in (rec.bytes().hex(), signature.hex())])

    def gen(self):
        """The lines of the generated workload."""
        return lines_bytes(gen_lines(self.words["N"], self.words["NUMBER"]))

    # -- commands over the net
    def ask(self):
        """The lines of a reply that a store sends."""
        key = self.public_key()
        query = self.query()
        text, at = self.words["QUERY"].encode("utf-8"), self.words.get("at")
        self.connect(lambda: self.net.connect(self.words["ADDR"]))
        try:
            reply = (ask_link(self.net, text) if at is None
                     else ask_at_link(self.net, at, text))
        except WireFault as fault:
            raise wire_stop(fault) from None
        finally:
            self.net.close()
        try:
            answer = Client(key, self.words.get("least", 0)).check(query, reply)
        except CheckFault as fault:
            raise Stop(1, "refused: " + fault_words(fault)) from None
        if at is not None and answer.version != at:
            raise Stop(1, f"refused: version {at} {answer.version}")
        return lines_bytes(answer_lines(answer))

    def connect(self, work):
        """Does what makes a connection; status 3 where that fails."""
        try:
            work()
        except Failed:
            raise Stop(3, "fault: outside") from None

    def line(self, text):
        """Writes a line at once."""
        try:
            self.out.put(lines_bytes([text]))
        except Failed:
            raise OutputFailed() from None

    def serve(self):
        """Serves so many connections, one after the other."""
        key = self.public_key()
        store = self.loaded(key, self.take("JOURNAL"))
        count = self.words["COUNT"]
        self.connect(lambda: self.net.listen(self.words["ADDR"]))
        for number in range(1, count + 1):
            self.connect(self.net.next)
            end = serve_link(store, self.net)
            self.net.close()
            self.line(f"connection {number} " + " ".join(str(part) for part in end))
        return lines_bytes([f"served {count}"])

    def own(self):
        """Commits a script's batches through a store."""
        key = self.seed_file()
        batches = self.script()
        journal, owner = self._opened(key)
        self.connect(lambda: self.net.connect(self.words["ADDR"]))
        try:
            self._bring_up(journal)
            for batch in batches:
                self._own_batch(journal, owner, batch)
        except WireFault as fault:
            raise wire_stop(fault) from None
        finally:
            self.net.close()
        return b""

    def _opened(self, key):
        try:
            journal = Journal.open(self.disk)
        except JournalFault as fault:
            if fault.name == "Damaged":
                raise Stop(7, f"bad journal {fault.index}") from None
            raise Stop(3, "fault: outside") from None
        if not journal.entries():
            owner, first = Owner.start(key)
            self._append(journal, first)
            return journal, owner
        try:
            return journal, replay(key, journal.entries())
        except EntryFault as fault:
            raise Stop(7, f"bad journal {fault.index}") from None

    def _append(self, journal, entry):
        try:
            journal.append(self.disk, entry)
        except JournalFault:
            raise Stop(3, "fault: outside") from None

    def _bring_up(self, journal):
        """Sends the entries that the store lacks."""
        entries, standing = journal.entries(), status_link(self.net)
        if standing is not None and (standing.version >= len(entries)
                                     or entries[standing.version].rec != standing):
            raise Stop(1, "refused: store stands elsewhere")
        first = 0 if standing is None else standing.version + 1
        for index, entry in list(enumerate(entries))[first:]:
            if index:
                propose_link(self.net, entry.batch)
            self._install(entry)

    def _install(self, entry):
        if install_link(self.net, entry.rec, entry.signature) != entry.rec.version:
            raise Stop(1, "refused: store stands elsewhere")

    def _own_batch(self, journal, owner, batch):
        proofs = propose_link(self.net, batch)
        try:
            step = owner.step(batch, proofs)
        except OwnerFault as fault:
            raise owner_stop(fault) from None
        self._append(journal, step.entry)
        owner.advance(step)
        self._install(step.entry)
        self.line(f"version {step.roots.version}")


def run(words, files, disk, net, out):
    """The whole program: gives the status."""
    try:
        data, status = Program(words, files, disk, net, out).go(), 0
    except Stop as stop:
        data, status = lines_bytes(stop.lines), stop.status
    except OutputFailed:
        return 3
    if data:
        try:
            out.put(data)
        except Failed:
            return 3
    return status


def main():
    """Runs the command line's words on the system, and gives the status."""
    try:
        words = [word.encode("utf-8").decode("utf-8") for word in sys.argv]
    except UnicodeEncodeError:
        words = ["reference"]
    return run(words, RealShelf(), FileDisk(), TcpNet(), RealSink(sys.stdout.buffer))
