"""Random lists of events of a world, right ones and wrong ones, with what is said of each; for tools/schedules."""
import random

from comparisons.memory_runs import image_with
from lines.format_answers import shared
from reference.faults import StoreFault
from reference.formats import batch_bytes, journal_bytes
from reference.generators import mutate
from reference.generators.odd_trees import odd_replies
from reference.generators.workload import Workload
from reference.generators.worlds import SECRET
from reference.histories import history_of
from reference.lms import SecretKey
from reference.sql import parse_batch, parse_query, parse_script
from reference.store import Store
from reference.world import World

# two batches that leave the tables as they were, and need no proofs
TURN = parse_script("CREATE TABLE turn (id BIGINT, note TEXT NULL, PRIMARY KEY (id)); COMMIT; DROP TABLE turn; COMMIT;")
NO_PROOFS = b"VOU1\0\0"
# a key of height 5 ends behind so many versions, or its lower tree does
BORDER = 32
# the types of one-time signatures: of the last one a signature takes the most hashes
ONE_LEVEL_SETS = [1, 2, *[3] * 7, 4]


class Story:
    """Tables under one key and what becomes of them, as far as no world goes another way; and hostile replies."""

    def __init__(self, number):
        self.run = run = random.Random(number)
        # an owner that comes back makes its lower tree anew, so a key of two levels has a set of short chains
        levels = run.choice([1, 1, 1, 2])
        self.secret = SecretKey(SECRET.ident, SECRET.seed, run.choice(ONE_LEVEL_SETS) if levels == 1 else 2, 5, levels)
        work = Workload(number, tables=run.choice([1, 2]), batches=run.randint(6, 14), commands=run.choice([1, 2, 4]), queries=6,
                        spread=run.choice([5, 20]), long_texts=False)
        self.batches, self.queries = work.batches, {text: parse_query(text) for text in work.queries}
        self.refused = [parse_batch(text) for text in work.refused]
        self.main = history_of(self.batches, self.secret)
        self.foreign = history_of(self.batches, SecretKey(bytes(16), self.secret.seed, self.secret.ots))
        self.apart = history_of([*TURN[:1], *self.batches[:4]], self.secret)
        self.replies = {}
        self.hostile = [self.hostile_replies(run.choice(list(self.queries))) for _ in range(6)]
        self.hostile_proofs = {entry.proofs: [other for _, other in mutate.proof_variants(entry.proofs, run, 40)]
                               for entry in run.sample(self.main.entries, 3)}

    def reply(self, store, version, text):
        """A store's reply, made once of the same record."""
        place = store.kept[version].rec, text
        if place not in self.replies:
            self.replies[place] = store.answer_at(version, self.queries[text])
        return self.replies[place]

    def hostile_replies(self, text):
        """A query with hostile replies that are made of an honest one."""
        run, query, store = self.run, self.queries[text], self.main.store
        version = run.randint(0, store.version())
        data = self.reply(store, version, text)
        others = [*mutate.reply_variants(data, run, 60), *mutate.opened_variants(data, store.kept[version], query),
                  *mutate.resigned_variants(self.secret, data, query, run, 6), *odd_replies(self.secret, data, query, run, 4)]
        few = run.sample(others, min(len(others), 60))
        return text, data, [other for _, other in few if len(other) < 20_000]


# -- bytes that are changed

def one_turned(run, data):
    """The bytes with a bit turned."""
    return next(mutate.bit_flips(data, run, 1))[1]


def one_set(run, data):
    """The bytes with one set to what often means something."""
    return next(mutate.byte_sets(data, run, 1))[1]


def cut_off(run, data):
    return data[:run.randrange(len(data))]


def spliced(before, image):
    """How many bytes at the end of those before are others in an image, as a number's bytes, and these."""
    front = shared(before, image)
    return (len(before) - front).to_bytes(4, "big"), image[front:]


# -- lists of events

def chosen(run, *kinds):
    """One of some kinds, each of which has a share."""
    return run.choices([kind for _, kind in kinds], [share for share, _ in kinds])[0]


class Schedule:
    """A list of events of a world, and beside it a store that follows its owner."""

    def __init__(self, story, number, length):
        self.story, self.run = story, random.Random(number)
        self.clients = self.run.choice([1, 1, 2, 2, 3, 4])
        self.world, self.store = World(story.secret, self.clients), Store(story.secret.public())
        self.begun = bytes(self.world.disk.data)
        first = self.world.journal.entries()[0]
        self.store.install(first.rec, first.signature)
        # how many of the story's batches each version has, the proofs and the replies so far, and the replies that are near others
        self.taken, self.proofs, self.seen, self.near = [0], [NO_PROOFS], [], {}
        # each event: its word, its byte strings, and what is said of it
        self.events = []
        if self.run.random() < 0.04:
            self.grow_to(BORDER - self.run.randint(1, 5))
        for _ in range(length):
            chosen(self.run, (46, self.commit), (22, self.crash), (32, self.receive))()

    def happen(self, word, strings, said):
        self.events.append((word, strings, said))
        return said[0]

    # commits

    def grow_to(self, version):
        """Commits batches that need no proofs."""
        while self.store.version() < version:
            self.commit_by(self.turn(), NO_PROOFS)

    def turn(self):
        return TURN["turn" in self.store.trees().by_name]

    def next_batch(self):
        """The story's next batch, or one that always can be committed."""
        left = self.story.batches[self.taken[-1]:]
        return left[0] if left and self.run.random() < 0.95 else self.turn()

    def honest_proofs(self, batch):
        """What the store answers to a batch, refused or not."""
        try:
            return self.store.propose(batch)
        except StoreFault as fault:
            return fault.fields["proofs"]

    def commit(self):
        chosen(self.run, (68, self.commit_next), (10, self.commit_by_other_proofs), (8, self.commit_again),
               (14, self.commit_refused))()

    def commit_next(self):
        batch = self.next_batch()
        self.commit_by(batch, self.honest_proofs(batch))

    def commit_by_other_proofs(self):
        """By proofs of which something is changed, or that are those of another batch."""
        batch = self.next_batch()
        right = self.honest_proofs(batch)
        others = self.story.hostile_proofs.get(right, [])
        some = self.run.sample(others, min(4, len(others)))
        self.commit_by(batch, self.run.choice([one_turned(self.run, right), one_set(self.run, right), cut_off(self.run, right),
                                               right + b"\0", self.run.choice(self.proofs), *some]))

    def commit_again(self):
        """A batch that is in the journal, by its proofs or by those that are right now."""
        entry = self.run.choice(self.world.journal.entries())
        self.commit_by(entry.batch, chosen(self.run, (1, entry.proofs), (1, self.honest_proofs(entry.batch))))

    def commit_refused(self):
        batch = self.run.choice(self.story.refused or [TURN[1]])
        self.commit_by(batch, self.honest_proofs(batch))

    def commit_by(self, batch, proofs):
        """Commits a batch, which the store follows where the owner takes it."""
        self.proofs.append(proofs)
        said = self.world.commit(batch, proofs)
        if self.happen("commit", (batch_bytes(batch), proofs), said) == "Committed":
            entry = self.world.journal.entries()[-1]
            self.store.propose(batch)
            self.store.install(entry.rec, entry.signature)
            at = self.taken[-1]
            self.taken.append(at + (self.story.batches[at:at + 1] == [tuple(batch)]))

    # stops

    def crash(self):
        before = self.whole()
        image = chosen(self.run, (25, self.whole), (35, self.left_image), (40, self.other_image))()
        said = self.world.crash(image)
        if self.happen("crash", spliced(before, image), said) == "Reopened":
            self.store.kept, self.taken = self.store.kept[:said[1]], self.taken[:said[1]]

    def whole(self):
        return bytes(self.world.disk.data)

    def left_image(self):
        """What a stop since the event before began may leave, with any bytes where some are lost."""
        moments = self.world.disk.moments[self.world.since:]
        whole = self.whole()
        lost = self.run.choice([b"", bytes(len(whole)), b"\1" * len(whole), b"\xff" * self.run.randrange(len(whole)), whole,
                                whole[:self.run.randrange(len(whole))], self.run.randbytes(len(whole))])
        return image_with(self.run.choice(moments), lost)

    def other_image(self):
        """Bytes that mostly no stop leaves: with one turned, some cut off or added, of an earlier moment or of another history."""
        run, whole, entries = self.run, self.whole(), self.world.journal.entries()
        slot, at = len(journal_bytes(entries[-1:])) - 1, run.randrange(len(whole))
        return run.choice([
            b"", whole[:at], whole[:-1], whole + b"\0", whole[:-1] + b"\1", whole[:-1] + run.randbytes(run.choice([1, 5, 3000])),
            one_turned(run, whole), whole[:-slot] + one_turned(run, whole[-slot:]),
            whole[:-slot] + b"\1" + run.randbytes(slot - 1), journal_bytes(entries[:-1]),
            journal_bytes(entries[:run.randrange(len(entries))]), self.story.apart.journal_bytes(),
            image_with(run.choice(self.world.disk.moments), b""),
        ])

    # replies

    def receive(self):
        text, data = chosen(self.run, (40, self.newest), (16, self.older), (14, self.hostile), (10, self.damaged),
                            (8, self.to_another_query), (6, self.foreign), (6, self.heard_before))()
        client = self.run.randrange(self.clients)
        self.happen("receive", (bytes([client]), text.encode(), data), self.world.receive(client, self.story.queries[text], data))

    def some_query(self):
        return self.run.choice(list(self.story.queries))

    def newest(self):
        return self.reply_at(self.store.version(), self.some_query())

    def older(self):
        return self.reply_at(self.run.randint(0, self.store.version()), self.some_query())

    def reply_at(self, version, text):
        """The store's reply, which may be heard again once a stop has taken the version away."""
        data = self.story.reply(self.store, version, text)
        self.seen.append((text, data))
        return text, data

    def hostile(self):
        """A reply that is made of an honest one, by whoever has the key or not."""
        text, data, others = self.run.choice(self.story.hostile)
        other = self.run.choice(others)
        self.near[other] = data
        return text, other

    def damaged(self):
        """A reply with a bit or a byte changed, or some bytes cut off."""
        text, data = self.newest()
        other = self.run.choice([one_turned, one_set, cut_off])(self.run, data)
        self.near[other] = data
        return text, other

    def to_another_query(self):
        return self.some_query(), self.older()[1]

    def foreign(self):
        """A reply of another owner's store, or by another history of the same key."""
        text = self.some_query()
        store = self.run.choice([self.story.foreign, self.story.apart]).store
        return text, self.story.reply(store, self.run.randint(0, store.version()), text)

    def heard_before(self):
        return self.run.choice(self.seen) if self.seen else self.newest()
