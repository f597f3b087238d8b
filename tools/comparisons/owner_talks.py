"""Random conversations of an owner with a store that may lie, over a disk that may fail; for tools/conversations."""
from comparisons.memory_runs import own_text
from reference import cli
from reference.formats import journal_bytes
from reference.generators import mutate
from reference.generators.worlds import SECRET
from reference.outside import MemDisk, MemLink, MemNet, MemShelf, MemSink, PeerNet
from reference.printing import print_batch
from reference.store import load_journal
from reference.wire import frame, serve_link

SEED = SECRET.ident + SECRET.seed
WORDS = ["vo_cli", "own", "seed", "127.0.0.1:7878", "script"]


class OwnerTalk:
    """A script, the bytes that come from the store and how many come at once, and what the disk holds; which call of it fails, behind
    how many bytes, or when a crash comes, and what it leaves."""

    def __init__(self, words, script, coming, piece, journal, failure=None, crash=None):
        self.files = {"script": script, "c0": coming, "disk": journal}
        self.own_words, self.piece, self.failure, self.crash = words, piece, failure, crash

    def words(self):
        """The call of run_lines, its names and numbers."""
        if self.failure:
            return ["fail", "disk", *map(str, self.failure), "own"]
        if self.crash:
            moment, lost = self.crash
            return ["crash_own", str(moment), f"{lost[:1].hex()}*{len(lost)}"]
        return ["own"]

    def line(self):
        return " ".join([*self.words(), "disk", "c0", str(self.piece), *(word.encode().hex() for word in self.own_words)])

    def due(self, files):
        """What the other implementation ends with, writes, puts and leaves on the disk, which is kept."""
        failing = ([self.failure[0] + 1], self.failure[1]) if self.failure else ()
        disk = MemDisk(files["disk"], *failing)
        text, left = own_text(self.own_words, files, MemNet([files["c0"]], self.piece), disk, self.crash)
        files.pop("disk")
        files["disk"] = left
        return text


def owner_talk(world, piece, changed):
    """A conversation in a world; `changed` changes bytes at random."""
    run = world.run
    held = run.randint(world.settled, len(world.entries))
    journal, script = journal_of(world.entries[:held]), script_of(world, held)
    words = [*WORDS, *world.options]
    answers = honest_answers(words, store_for(world, held), journal, script)
    coming = coming_bytes(run, answers, changed)
    failure = crash = None
    if run.random() < 0.15:
        failure = run.randrange(12), run.choice([0, 1, 5, 700, 5000])
    elif run.random() < 0.15:
        crash = run.randrange(14), bytes([run.choice([0, 1, 255])]) * run.choice([1, 2000, 20000])
    return OwnerTalk(words, script, coming, piece, disk_bytes(run, journal, changed), failure, crash)


def journal_of(entries):
    return journal_bytes(entries) if entries else b"\0"


def script_of(world, held):
    """Some of the batches that come next, and sometimes such as the tables refuse or of another history."""
    run = world.run
    texts = [print_batch(entry.batch) for entry in world.entries[max(held, 1):][:run.randint(0, 3)]]
    if run.random() < 0.25:
        odd = [*world.refused, *(print_batch(entry.batch) for entry in world.others[1:])]
        texts.insert(run.randint(0, len(texts)), run.choice(odd))
    return "".join(text + " COMMIT; " for text in texts).encode()


def store_of(world, entries):
    """A store of these entries."""
    return load_journal(world.secret.public(), journal_of(entries))


def store_for(world, held):
    """A store that has as many versions as the owner, mostly, or fewer, or more, or those of another history."""
    run = world.run
    kind = run.random()
    if kind < 0.1:
        return store_of(world, world.others[:run.randint(0, len(world.others))])
    if kind < 0.2:
        return store_of(world, world.entries[:run.randint(held, len(world.entries))])
    return store_of(world, world.entries[:held if kind < 0.6 else run.randint(0, held)])


def honest_answers(words, store, journal, script):
    """What the store answers to the owner of this journal who commits the script."""
    answers = []

    def answer(request):
        link = MemLink(request)
        serve_link(store, link)
        answers.append(bytes(link.sent))
        return answers[-1]
    cli.run(words, MemShelf({"seed": SEED, "script": script}), MemDisk(journal), PeerNet(answer), MemSink())
    return answers


def coming_bytes(run, answers, changed):
    """The answers, one of which may be a lie, or some bytes of which are changed."""
    kind = run.random()
    if kind < 0.4 or not answers:
        return b"".join(answers)
    if kind < 0.6:
        return changed(run, b"".join(answers))
    place = run.randrange(len(answers))
    return b"".join([*answers[:place], lie_for(run, answers, answers[place]), *answers[place + 1:]])


def lie_for(run, answers, honest):
    """An answer that the store doesn't give."""
    kind, body = honest[4:5], honest[5:]
    if kind == b"\x83" and run.random() < 0.7:
        return frame(0x83, run.choice([other for _, other in mutate.proof_variants(body, run, 40)]))
    return run.choice([
        b"",
        frame(0x8F, run.randbytes(1)),
        frame(0x84, run.choice([bytes(8), run.randrange(9).to_bytes(8, "big"), run.randbytes(8)])),
        frame(0x82, run.choice([b"\0", b"\1" + run.randbytes(60), b"\2"])),
        run.choice(answers),
        changed_record(run, honest),
        frame(run.randrange(0x80, 0x90), run.randbytes(run.choice([0, 1, 2, 8, 61]))),
    ])


def changed_record(run, honest):
    """An answer with a bit of its last bytes turned."""
    at = len(honest) - 1 - run.randrange(min(8, len(honest)))
    return honest[:at] + bytes([honest[at] ^ (1 << run.randrange(8))]) + honest[at + 1:]


def disk_bytes(run, journal, changed):
    """What the disk holds: the journal, mostly, also with what a crash left behind its end, or changed."""
    kind = run.random()
    if kind < 0.15:
        return journal[:-1] + run.choice([b"\0", b"\2", b"\xff"]) + run.randbytes(run.choice([1, 40, 3000]))
    if kind < 0.3:
        return changed(run, journal)
    return b"" if journal == b"\0" and kind < 0.7 else journal
