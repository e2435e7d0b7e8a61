#!/usr/bin/env python3
"""Plays whole schedules and loads on a model of the rules, and compares the reports.

    python3 schedules.py TOP
    python3 schedules.py replay FILE
    python3 schedules.py generate NUMBER COUNT
    python3 schedules.py load NUMBER COUNT

TOP is the folder that holds `examples` and `crates`. A schedule is a text that says line by line what clients are asked and which
messages are handed over; the report says what becomes of each transaction. This program reads every schedule in the examples, has
it played by replicas and clients of its own, and compares the report with the one that stands beside it. They are written from the
rules of the protocol alone, over lists that are searched whole, and share no code with the nodes or with the other models. The other
calls print what the commands of these names do: one report, and the schedule and the totals of a load.

Frames are handed over as values. What parties sign holds, since no line that is known here makes a signature up: so a certificate is
the decision that it proves, a proof is whether there is one, and of tallies the numbers of votes are kept. A schedule with frames in
hexadecimal is left out, and so is one whose run ends early: no line is refused here. Ids are real, since they order versions.

Loads are schedules that are drawn from a number. Their texts are compared with those of the tests and the examples, and what
becomes of their transactions with the totals there. A load is counted as a schedule.

Each difference is printed, and how many schedules are left out by their first line that this program doesn't know. The last line
counts schedules and differences; the status is 1 where something differs, or nothing was compared.
"""

import hashlib
import pathlib
import re
import struct
import sys
from collections import Counter, namedtuple

COMMIT, ABORT, WAIT, OPEN = "commit", "abort", "wait", "open"
GREATEST = (1 << 64) - 1
NO_ID = bytes(32)
GENESIS = (0, 0, NO_ID)  # a version is a time, a client and an id; this one stands for an absent key
CLIENTS = range(1, 17)
LEAVES = {"w4h5": 32, "w8h5": 32, "w4h10": 1024, "w8h10": 1024}  # how often a key signs, where that is bounded


class LeftOut(Exception):
    """What a schedule asks for is no part of this model; the text says what it is."""


# ---- frames. A party is ("replica", shard, index) or ("client", number). A message is a frame with its sender and receiver.

Read = namedtuple("Read", "key time client")
Reply = namedtuple("Reply", "shard replica key time client committed prepared")
FirstStage = namedtuple("FirstStage", "transaction")
Vote = namedtuple("Vote", "shard replica identity decision has_proof")
SecondStage = namedtuple("SecondStage", "transaction decision tallies")  # by shard the number of votes
LogReply = namedtuple("LogReply", "shard replica identity decision decided current")
Writeback = namedtuple("Writeback", "transaction decision")
Recover = namedtuple("Recover", "transaction")
Invoke = namedtuple("Invoke", "identity shard views")  # the current views of the log replies in it
Elect = namedtuple("Elect", "transaction shard replica decision view")
Decide = namedtuple("Decide", "transaction shard replica decision view words")  # by replica the decision that its word names


# ---- transactions and the cluster


def number_bytes(number, size=1):
    return number.to_bytes(size, "big")


def sized(text, size=1):
    """A text behind its length."""
    return number_bytes(len(text), size) + text


def counted(items):
    """The spellings of a list's items behind their number."""
    return number_bytes(len(items)) + b"".join(items)


def version_bytes(version):
    time, client, identity = version
    return number_bytes(time, 8) + number_bytes(client) + identity


class Transaction:
    """What one client reads and writes at one time. By key a read is a version and whether that is a dependency, and a write is a
    value, or None where it deletes the key."""

    def __init__(self, time, client, reads, writes):
        self.time, self.client = time, client
        self.reads, self.writes = dict(sorted(reads.items())), dict(sorted(writes.items()))
        self.identity = hashlib.sha256(self.canonical_bytes()).digest()
        self.version = (time, client, self.identity)

    def canonical_bytes(self):
        """The only spelling: in format 2, where each write has a flag that says whether it has a value, if something is deleted."""
        deletes = any(value is None for value in self.writes.values())
        head = bytes([2 if deletes else 1]) + number_bytes(self.time, 8) + bytes([self.client])
        reads = [sized(key) + version_bytes(version) + bytes([depends]) for key, (version, depends) in self.reads.items()]
        flags = {key: bytes([value is not None]) if deletes else b"" for key, value in self.writes.items()}
        values = {key: b"" if value is None else sized(value, 2) for key, value in self.writes.items()}
        return head + counted(reads) + counted([sized(key) + flags[key] + values[key] for key in self.writes])

    def has_good_form(self):
        below = all(version < self.version for version, _ in self.reads.values())
        return bool(self.reads or self.writes) and self.time > 0 and below

    def is_overtaken_by(self, writer, keys):
        """Whether it wrote one of these keys between the version that this one read of it and this one's own."""
        read = [(key, version) for key, (version, _) in self.reads.items() if key in keys and key in writer.writes]
        return any(version < writer.version < self.version for _, version in read)

    def conflicts(self, other, keys):
        """Whether one of the two is overtaken by the other on one of these keys."""
        return self.identity != other.identity and (self.is_overtaken_by(other, keys) or other.is_overtaken_by(self, keys))


class Cluster:
    """The numbers that all parties know, and what follows of them."""

    def __init__(self, faults, shards, reads, delta):
        self.faults, self.shards, self.reads, self.delta = faults, shards, reads, delta
        self.replicas = self.fast_commit = 5 * faults + 1
        self.log_quorum = 4 * faults + 1
        self.commit_tally = self.fast_abort = self.view_over = 3 * faults + 1
        self.majority = 2 * faults + 1
        self.abort_tally = self.catch_up = faults + 1

    def shard_of(self, key):
        return sum(key) % self.shards

    def involved(self, transaction):
        return sorted({self.shard_of(key) for key in [*transaction.reads, *transaction.writes]})

    def log_shard(self, transaction):
        shards = self.involved(transaction)
        return shards[transaction.time % len(shards)]

    def leader(self, transaction, view):
        return (transaction.time + view) % self.replicas

    def may_log(self, transaction, decision, tallies):
        """Whether so many votes let a decision be logged: a commit those of each involved shard, an abort those of one."""
        shards = self.involved(transaction)
        if decision == COMMIT:
            return sorted(tallies) == shards and all(count >= self.commit_tally for count in tallies.values())
        return len(tallies) == 1 and all(shard in shards and count >= self.abort_tally for shard, count in tallies.items())

    def raised(self, current, views):
        """The view after an invoke with these reported views: one more than what most have, or what some have, or the current one."""

        def reached(needed, floor):
            reported = [view for view in views if view > floor and sum(other >= view for other in views) >= needed]
            return max(reported, default=None)

        over = reached(self.view_over, -1)
        if over is None:
            return reached(self.catch_up, current) or current
        return max(current, min(over + 1, GREATEST))

    def to_shards(self, shards, frame):
        """The frame to every replica of these shards, ascending."""
        return [(("replica", shard, index), frame) for shard in shards for index in range(self.replicas)]


# ---- a replica


class Known:
    """A transaction in a replica's book: its vote, or who asked for it while it waits, and its outcome."""

    def __init__(self, transaction):
        self.transaction = transaction
        self.vote, self.askers, self.outcome = None, [], None

    def is_waiting(self):
        return self.outcome is None and self.vote is None and bool(self.askers)

    def is_prepared(self):
        voted = self.vote is not None and self.vote.decision == COMMIT
        return self.is_waiting() or (self.outcome is None and voted)

    def is_committed(self):
        return self.outcome == COMMIT


class Cell:
    """What a replica logged of a transaction: the decision, the view in which it was decided, the current view, and whether a reply
    with these was signed. The askers are clients."""

    def __init__(self, decision, decided, current, askers):
        self.decision, self.decided, self.current, self.askers = decision, decided, current, askers
        self.is_signed = False


class Replica:
    """One of a shard, with the transactions that it knows in order of arrival, by key the latest noted read, by id the cells of its
    log, and by id and view the election words that it took."""

    def __init__(self, cluster, shard, index, now):
        self.cluster, self.shard, self.index, self.now = cluster, shard, index, now
        self.book, self.noted, self.cells, self.elections, self.signatures = {}, {}, {}, {}, 0

    def is_mine(self, key):
        return self.cluster.shard_of(key) == self.shard

    def refuses(self, frame):
        """What isn't for this replica, has a transaction of bad form, or can't be done."""
        if isinstance(frame, Read):
            return not self.is_mine(frame.key) or frame.time > self.now + self.cluster.delta
        if isinstance(frame, Invoke):
            return frame.shard != self.shard or self.refuses_invoke(frame)
        if not hasattr(frame, "transaction") or not frame.transaction.has_good_form():
            return True
        if isinstance(frame, (FirstStage, Recover, Writeback)):
            return self.shard not in self.cluster.involved(frame.transaction)
        if self.cluster.log_shard(frame.transaction) != self.shard:
            return True
        if isinstance(frame, SecondStage):
            return not self.cluster.may_log(*frame)
        return frame.shard != self.shard or self.refuses_election(frame)

    def refuses_invoke(self, frame):
        """Where nothing is logged, or the view isn't raised; not where an outcome is known."""
        known, cell = self.book.get(frame.identity), self.cells.get(frame.identity)
        if known and known.outcome:
            return False
        return not cell or self.cluster.raised(cell.current, frame.views) <= cell.current

    def refuses_election(self, frame):
        """An elect for another leader; a decide of another one, of a view that is past, or with words that don't elect its decision."""
        leader = self.cluster.leader(frame.transaction, frame.view)
        if isinstance(frame, Elect):
            return leader != self.index
        cell = self.cells.get(frame.transaction.identity)
        is_late = cell is not None and (frame.view < cell.current or frame.view <= cell.decided)
        agreeing = sum(decision == frame.decision for decision in frame.words.values())
        elects = len(frame.words) == self.cluster.log_quorum and agreeing >= self.cluster.majority
        return leader != frame.replica or is_late or not elects

    def take(self, sender, frame):
        """What goes out because of a frame: receivers with frames. Of a transaction with an outcome a writeback tells it."""
        if self.refuses(frame):
            return []
        if isinstance(frame, Read):
            return self.take_read(sender, frame)
        if isinstance(frame, Elect):
            return self.take_elect(frame)
        if isinstance(frame, Invoke):
            return self.take_invoke(sender, self.book[frame.identity], frame.views)
        known = self.book.setdefault(frame.transaction.identity, Known(frame.transaction))
        if isinstance(frame, Decide):
            return self.take_decide(frame)
        if isinstance(frame, Writeback):
            return self.take_writeback(known, frame.decision)
        return self.take_stage(sender, known, frame)

    def take_stage(self, sender, known, frame):
        """A first or second stage, or a recover, which is as a second stage where something is logged."""
        if known.outcome:
            return [(sender, Writeback(known.transaction, known.outcome))]
        identity = known.transaction.identity
        if isinstance(frame, SecondStage):
            self.cells.setdefault(identity, Cell(frame.decision, 0, 0, set()))
        elif not isinstance(frame, Recover) or identity not in self.cells:
            return self.take_first_stage(sender, known)
        self.add_asker(identity, sender)
        return [(sender, self.log_reply(identity))]

    def take_read(self, sender, frame):
        """The read is noted. The reply has the latest committed and the latest prepared version below the reader."""
        reader = (frame.time, frame.client)
        self.noted[frame.key] = max(reader, self.noted.get(frame.key, reader))
        self.signatures += 1
        found = [self.latest(frame.key, reader + (NO_ID,), test) for test in (Known.is_committed, Known.is_prepared)]
        return [(sender, Reply(self.shard, self.index, *frame, *found))]

    def latest(self, key, bound, test):
        """The latest transaction that wrote the key below this version and passes the test."""
        passing = [known.transaction for known in self.book.values() if test(known)]
        found = [writer for writer in passing if key in writer.writes and writer.version < bound]
        return max(found, key=lambda writer: writer.version, default=None)

    def take_first_stage(self, sender, known):
        """The stored vote; or the sender waits too; or the verdict."""
        if known.vote:
            return [(sender, known.vote)]
        verdict = WAIT if known.is_waiting() else self.verdict(known.transaction)
        if verdict != WAIT:
            return [(sender, self.vote(known, verdict, verdict == ABORT and self.has_proof(known.transaction)))]
        if sender not in known.askers:
            known.askers.append(sender)
        return []

    def vote(self, known, decision, has_proof):
        self.signatures += 1
        known.vote = Vote(self.shard, self.index, known.transaction.identity, decision, has_proof)
        return known.vote

    def dependencies(self, transaction):
        """The keys of this shard that it read of a transaction that wasn't committed, with the versions."""
        return [(key, version) for key, (version, depends) in transaction.reads.items() if depends and self.is_mine(key)]

    def is_broken(self, key, version):
        """Whether a dependency isn't known here, is aborted, doesn't write the key or has another version."""
        known = self.book.get(version[2])
        return not known or known.outcome == ABORT or key not in known.transaction.writes or known.transaction.version != version

    def conflicting(self, transaction, tests):
        """Whether it conflicts on this shard with a transaction that passes one of the tests."""
        keys = [key for key in [*transaction.reads, *transaction.writes] if self.is_mine(key)]
        rivals = [known.transaction for known in self.book.values() if any(test(known) for test in tests)]
        return any(transaction.conflicts(rival, keys) for rival in rivals)

    def has_proof(self, transaction):
        return self.conflicting(transaction, [Known.is_committed])

    def verdict(self, transaction):
        """By the keys of this shard alone."""
        dependencies, writer = self.dependencies(transaction), (transaction.time, transaction.client)
        written = [key for key in transaction.writes if self.is_mine(key)]
        if transaction.time > self.now + self.cluster.delta:
            return ABORT
        if any(self.is_broken(key, version) for key, version in dependencies):
            return ABORT
        if self.conflicting(transaction, [Known.is_committed, Known.is_prepared]):
            return ABORT
        if any(self.noted.get(key, writer) > writer for key in written):
            return ABORT
        return COMMIT if all(self.book[version[2]].outcome for _, version in dependencies) else WAIT

    def add_asker(self, identity, sender):
        if sender[0] == "client":
            self.cells[identity].askers.add(sender)

    def log_reply(self, identity):
        """What the cell says; the reply is signed anew only where it changed."""
        cell = self.cells[identity]
        if not cell.is_signed:
            self.signatures += 1
            cell.is_signed = True
        return LogReply(self.shard, self.index, identity, cell.decision, cell.decided, cell.current)

    def take_invoke(self, sender, known, views):
        """The view is raised, and its leader gets an election word."""
        transaction, cell = known.transaction, self.cells.get(known.transaction.identity)
        if known.outcome:
            return [(sender, Writeback(transaction, known.outcome))]
        cell.current, cell.is_signed = self.cluster.raised(cell.current, views), False
        self.add_asker(transaction.identity, sender)
        self.signatures += 1
        leader = ("replica", self.shard, self.cluster.leader(transaction, cell.current))
        return [(leader, Elect(transaction, self.shard, self.index, cell.decision, cell.current))]

    def take_elect(self, frame):
        """The first word of each replica counts, until there are enough: then this leader proposes what most of them name."""
        words = self.elections.setdefault((frame.transaction.identity, frame.view), {})
        if frame.replica in words or len(words) == self.cluster.log_quorum:
            return []
        words[frame.replica] = frame.decision
        if len(words) < self.cluster.log_quorum:
            return []
        self.signatures += 1
        decision = COMMIT if list(words.values()).count(COMMIT) >= self.cluster.majority else ABORT
        frame = Decide(frame.transaction, self.shard, self.index, decision, frame.view, dict(words))
        return self.cluster.to_shards([self.shard], frame)

    def take_decide(self, frame):
        """What the leader proposes is logged, and every asker is told."""
        identity = frame.transaction.identity
        askers = self.cells[identity].askers if identity in self.cells else set()
        self.cells[identity] = Cell(frame.decision, frame.view, frame.view, askers)
        reply = self.log_reply(identity)
        return [(asker, reply) for asker in sorted(askers)]

    def take_writeback(self, known, decision):
        """A known outcome stays. Another one may release votes, in order of arrival, each to its askers in order of asking."""
        if known.outcome:
            return []
        known.outcome = decision
        released = [(waiting, self.released(waiting)) for waiting in self.book.values() if waiting.is_waiting()]
        votes = [(waiting, self.vote(waiting, release, False)) for waiting, release in released if release]
        return [(asker, vote) for waiting, vote in votes for asker in waiting.askers]

    def released(self, waiting):
        """The vote that the outcomes of its dependencies allow, if they do."""
        outcomes = [self.book[version[2]].outcome for _, version in self.dependencies(waiting.transaction)]
        if ABORT in outcomes:
            return ABORT
        return None if None in outcomes else COMMIT


# ---- a client

# What was read: a version, whether it is a dependency, and the transaction that wrote it, or None for genesis.
Choice = namedtuple("Choice", "version depends writer")


class Slot:
    """A transaction that a line began: the replies to its reads by key and replica, the choices, the writes, and what it formed."""

    def __init__(self, client, time):
        self.client, self.time = client, time
        self.replies, self.choices, self.writes, self.transaction = {}, {}, {}, None

    def form(self):
        reads = {key: (choice.version, choice.depends) for key, choice in self.choices.items()}
        self.transaction = Transaction(self.time, self.client, reads, self.writes)
        return self.transaction


def choice_of(replies, needed):
    """The greatest of genesis, the committed versions and the prepared ones that so many replies carry; it is a dependency where no
    reply carries it as committed."""
    committed = [reply.committed for reply in replies if reply.committed]
    prepared = [reply.prepared for reply in replies if reply.prepared]
    times = Counter(writer.identity for writer in prepared)
    counting = committed + [writer for writer in prepared if times[writer.identity] >= needed]
    if not counting:
        return Choice(GENESIS, False, None)
    writer = max(counting, key=lambda writer: writer.version)
    return Choice(writer.version, all(other.identity != writer.identity for other in committed), writer)


class Pursuit:
    """A formed transaction as a client follows it: the first vote of each replica, the log replies in order, and the outcome."""

    def __init__(self, cluster, transaction):
        self.cluster, self.transaction, self.shards = cluster, transaction, cluster.involved(transaction)
        self.votes, self.logs, self.outcome, self.is_second = {}, [], None, False

    def take(self, frame):
        """Counts a frame, and decides by the first rule that holds."""
        if isinstance(frame, Vote) and frame.shard in self.shards:
            self.votes.setdefault((frame.shard, frame.replica), frame)
        if isinstance(frame, LogReply) and frame.shard == self.cluster.log_shard(self.transaction):
            self.logs.append(frame)
        self.outcome = frame.decision if isinstance(frame, Writeback) else self.decision()

    def tally(self, shard, decision):
        return sum(vote.shard == shard and vote.decision == decision for vote in self.votes.values())

    def decision(self):
        """All votes commit; or many of a shard abort; or one with a proof aborts; or enough replicas logged one decision in one view."""
        cluster = self.cluster
        if all(self.tally(shard, COMMIT) >= cluster.fast_commit for shard in self.shards):
            return COMMIT
        if any(self.tally(shard, ABORT) >= cluster.fast_abort for shard in self.shards):
            return ABORT
        if any(vote.has_proof for vote in self.votes.values()):
            return ABORT
        logged = {}
        for reply in self.logs:
            logged.setdefault((reply.decision, reply.decided), set()).add(reply.replica)
        return next((decision for (decision, _), replicas in logged.items() if len(replicas) >= cluster.log_quorum), None)

    def has_all_votes(self):
        return len(self.votes) == len(self.shards) * self.cluster.replicas

    def loggable(self):
        """What the votes allow to be logged, with the numbers of votes: a commit, or an abort by those of the lowest shard; or None."""
        commits = {shard: self.tally(shard, COMMIT) for shard in self.shards}
        if self.cluster.may_log(self.transaction, COMMIT, commits):
            return COMMIT, commits
        aborts = [(shard, self.tally(shard, ABORT)) for shard in self.shards]
        enough = [(shard, count) for shard, count in aborts if count >= self.cluster.abort_tally]
        return (ABORT, dict(enough[:1])) if enough else None

    def latest_views(self):
        """By replica the greatest current view of its log replies."""
        views = {}
        for reply in self.logs:
            views[reply.replica] = max(reply.current, views.get(reply.replica, 0))
        return views


class Client:
    """A client, with its slots by time and its pursuits by id. A call gives what goes out: receivers with frames. A faulty one is
    asked to prepare what it claims, and nothing else."""

    def __init__(self, cluster, number):
        self.cluster, self.number = cluster, number
        self.slots, self.pursuits, self.signatures = {}, {}, 0

    def read(self, slot, key):
        """Asks, unless the key was asked for or written before."""
        if key in slot.writes or key in slot.replies:
            return []
        slot.replies[key] = {}
        return self.cluster.to_shards([self.cluster.shard_of(key)], Read(key, slot.time, self.number))

    def prepare(self, slot):
        """Forms and signs the transaction, and sends it."""
        if not set(slot.replies) <= set(slot.choices):
            raise LeftOut("a refused call")
        pursuit = Pursuit(self.cluster, slot.form())
        self.pursuits[slot.transaction.identity] = pursuit
        self.signatures += 1
        return self.cluster.to_shards(pursuit.shards, FirstStage(slot.transaction))

    def settle(self, transaction):
        return self.second_stage(self.pursuits[transaction.identity])

    def recover(self, transaction):
        pursuit = self.pursuits.setdefault(transaction.identity, Pursuit(self.cluster, transaction))
        return self.cluster.to_shards(pursuit.shards, Recover(transaction))

    def invoke(self, transaction):
        """Asks for an election, unless the outcome is known."""
        pursuit, log_shard = self.pursuits[transaction.identity], self.cluster.log_shard(transaction)
        if pursuit.outcome:
            return []
        views = list(pursuit.latest_views().values())
        return self.cluster.to_shards([log_shard], Invoke(transaction.identity, log_shard, views))

    def take(self, _, frame):
        """What goes out because of a frame. One that answers nothing here does nothing, and nor does one behind an outcome."""
        if isinstance(frame, Reply):
            return self.take_reply(frame)
        if not isinstance(frame, (Vote, LogReply, Writeback)):
            return []
        identity = frame.transaction.identity if isinstance(frame, Writeback) else frame.identity
        pursuit = self.pursuits.get(identity)
        if pursuit is None or pursuit.outcome:
            return []
        pursuit.take(frame)
        if pursuit.outcome:
            return self.cluster.to_shards(pursuit.shards, Writeback(pursuit.transaction, pursuit.outcome))
        return self.second_stage(pursuit) if pursuit.has_all_votes() else []

    def take_reply(self, reply):
        """The first reply of each replica counts, until there are enough for the choice."""
        slot = self.slots.get(reply.time) if reply.client == self.number else None
        if slot and reply.key in slot.replies and reply.key not in slot.choices:
            replies = slot.replies[reply.key]
            replies.setdefault(reply.replica, reply)
            if len(replies) == self.cluster.reads:
                slot.choices[reply.key] = choice_of(replies.values(), self.cluster.faults + 1)
        return []

    def second_stage(self, pursuit):
        """Has logged what the votes allow, once, and where nothing is decided."""
        loggable = pursuit.loggable()
        if pursuit.is_second or pursuit.outcome or not loggable:
            return []
        pursuit.is_second = True
        log_shard = self.cluster.log_shard(pursuit.transaction)
        return self.cluster.to_shards([log_shard], SecondStage(pursuit.transaction, *loggable))


# ---- the run of a schedule


def unspelled(token):
    """The bytes of a key or a value: `%` with two digits is a byte, and `%` alone is the empty value."""
    if token == "%":
        return b""
    return re.sub(rb"%([0-9a-f]{2})", lambda match: bytes.fromhex(match[1].decode()), token.encode())


def spelled(text):
    plain = [chr(byte) if 0x21 <= byte <= 0x7E and byte not in b"%:" else f"%{byte:02x}" for byte in text]
    return "".join(plain) or "%"


def party_of(tokens):
    """`replica SHARD INDEX` or `client NUMBER`."""
    return (tokens[0], *map(int, tokens[1:]))


class Message:
    """A frame in the pool, which waits until it is delivered or lost."""

    def __init__(self, sender, receiver, frame, waits):
        self.sender, self.receiver, self.frame, self.waits = sender, receiver, frame, waits


class Run:
    """What a schedule comes to: the parties, the messages in order, the slots by name, and by id the outcomes that were seen."""

    def __init__(self, header):
        fields = dict(token.split("=") for token in header if "=" in token)
        self.keys, moment = fields.pop("keys"), int(fields.pop("clock"))
        self.cluster = Cluster(*(int(fields[name]) for name in ("f", "shards", "reads", "delta")))
        places = [place for place, _ in self.cluster.to_shards(range(self.cluster.shards), None)]
        self.parties = {place: Replica(self.cluster, *place[1:], moment) for place in places}
        self.parties.update({("client", number): Client(self.cluster, number) for number in CLIENTS})
        self.faulty, self.pool, self.named, self.outcomes = set(), [], {}, {}

    def send(self, sender, sent, waits=True):
        """Messages enter the pool, and the certificates in them are seen."""
        for receiver, frame in sent:
            self.pool.append(Message(sender, receiver, frame, waits))
            if isinstance(frame, Writeback):
                self.outcomes.setdefault(frame.transaction.identity, frame.decision)

    def hand(self, message, party, waits=True):
        """A party is handed a message's frame, and what it sends waits. A faulty one does nothing."""
        if party not in self.faulty:
            self.send(party, self.parties[party].take(message.sender, message.frame), waits)

    def call(self, party, method, *arguments):
        """A client is called."""
        self.send(party, getattr(self.parties[party], method)(*arguments))

    def message(self, number):
        return self.pool[int(number) - 1]

    # Each line is a method of its first token, which is handed the others.

    def line_faulty(self, *party):
        self.faulty.add(party_of(party))

    def line_begin(self, name, client, time):
        slot = Slot(int(client), int(time))
        self.named[name] = slot
        self.parties["client", slot.client].slots[slot.time] = slot

    def line_read(self, name, key):
        slot = self.named[name]
        self.call(("client", slot.client), "read", slot, unspelled(key))

    def line_write(self, name, key, value):
        self.named[name].writes[unspelled(key)] = unspelled(value)

    def line_delete(self, name, key):
        self.named[name].writes[unspelled(key)] = None

    def line_claim(self, name, key, writer):
        """A faulty client's read, at the version of another transaction or at genesis."""
        version = GENESIS if writer == "-" else self.named[writer].transaction.version
        self.named[name].choices[unspelled(key)] = Choice(version, False, None)

    def line_prepare(self, name):
        slot = self.named[name]
        self.call(("client", slot.client), "prepare", slot)

    def line_settle(self, name, client):
        self.call(("client", int(client)), "settle", self.named[name].transaction)

    def line_recover(self, name, client):
        self.call(("client", int(client)), "recover", self.named[name].transaction)

    def line_invoke(self, name, client):
        self.call(("client", int(client)), "invoke", self.named[name].transaction)

    # What faulty parties send: as the line says it, with votes and election words out of the pool.

    def lie(self, shard, replica, receiver, make, *fields):
        """A faulty replica signs a frame and sends it."""
        place = ("replica", int(shard), int(replica))
        self.parties[place].signatures += 1
        self.send(place, [(receiver, make(*fields))])

    def line_vote(self, shard, replica, name, decision, client):
        identity, receiver = self.named[name].transaction.identity, ("client", int(client))
        self.lie(shard, replica, receiver, Vote, int(shard), int(replica), identity, decision, False)

    def line_logged(self, shard, replica, name, decision, decided, current, client):
        fields = (int(shard), int(replica), self.named[name].transaction.identity, decision, int(decided), int(current))
        self.lie(shard, replica, ("client", int(client)), LogReply, *fields)

    def line_elect(self, shard, replica, name, decision, view):
        transaction, view = self.named[name].transaction, int(view)
        leader = ("replica", self.cluster.log_shard(transaction), self.cluster.leader(transaction, view))
        self.lie(shard, replica, leader, Elect, transaction, int(shard), int(replica), decision, view)

    def line_decide(self, shard, replica, name, decision, view, receiver):
        transaction, shard, view = self.named[name].transaction, int(shard), int(view)
        words = self.words_of(transaction.identity, shard, view, decision)
        fields = (transaction, shard, int(replica), decision, view, words)
        self.lie(shard, replica, ("replica", shard, int(receiver)), Decide, *fields)

    def words_of(self, identity, shard, view, decision):
        """Of each replica a word for this view, those with the decision first, at most as many as elect."""
        elects = [message.frame for message in self.pool if isinstance(message.frame, Elect)]
        about = [frame for frame in elects if (frame.transaction.identity, frame.shard, frame.view) == (identity, shard, view)]
        words = {}
        for frame in sorted(about, key=lambda frame: frame.decision != decision):
            words.setdefault(frame.replica, frame.decision)
        return dict(list(words.items())[: self.cluster.log_quorum])

    def line_second(self, name, decision, replica):
        slot = self.named[name]
        tallies = self.tallies_of(slot.transaction, decision)
        place = ("replica", self.cluster.log_shard(slot.transaction), int(replica))
        self.send(("client", slot.client), [(place, SecondStage(slot.transaction, decision, tallies))])

    def tallies_of(self, transaction, decision):
        """How many replicas of a shard voted so: of each shard for a commit, for an abort of the lowest that has enough, if any has."""
        votes = [message.frame for message in self.pool if isinstance(message.frame, Vote)]
        about = {(vote.shard, vote.replica) for vote in votes if (vote.identity, vote.decision) == (transaction.identity, decision)}
        counts = {shard: sum(place[0] == shard for place in about) for shard in self.cluster.involved(transaction)}
        if decision == COMMIT:
            return counts
        enough = [shard for shard, count in counts.items() if count >= self.cluster.abort_tally]
        shard = min(enough or counts)
        return {shard: counts[shard]}

    def line_round(self):
        """Each message that waits when the line begins is delivered."""
        waiting = [number for number, message in enumerate(self.pool, 1) if message.waits]
        for number in waiting:
            self.line_deliver(number)

    def line_deliver(self, number):
        message = self.message(number)
        message.waits = False
        self.hand(message, message.receiver)

    def line_lose(self, number):
        self.message(number).waits = False

    def line_divert(self, number, *party):
        """The frame is handed to another party, and the message waits as before."""
        self.hand(self.message(number), party_of(party))

    def line_clock(self, shard, replica, moment):
        self.parties["replica", int(shard), int(replica)].now = int(moment)

    def line_stop(self, shard, replica, number, write, left):
        """A replica's disk stops while it takes a message. Its record counts where the second write, the gate, left 01 first: then the
        messages that it sends are lost. Otherwise nothing was handed. Of a frame that it refuses nothing is written."""
        message, place = self.message(number), ("replica", int(shard), int(replica))
        counts = write == "2" and left.startswith("01")
        if not counts and not self.parties[place].refuses(message.frame):
            return
        message.waits = message.waits and place != message.receiver
        self.hand(message, place, waits=False)

    def test_leaves(self):
        """Leaves out a run in which a key would have signed too often."""
        if any(party.signatures > LEAVES.get(self.keys, party.signatures) for party in self.parties.values()):
            raise LeftOut("more signatures than leaves")

    # The report.

    def outcome(self, slot):
        return self.outcomes.get(slot.transaction.identity, OPEN) if slot.transaction else OPEN

    def writer_name(self, identity):
        """The first name whose transaction has the id, or else the id."""
        formed = [(name, slot.transaction) for name, slot in self.named.items() if slot.transaction]
        return next((name for name, transaction in formed if transaction.identity == identity), identity.hex())

    def read_line(self, name, key, choice):
        line = f"read {name} {spelled(key)} "
        if choice.writer is None:
            return line + "-"
        value = choice.writer.writes[key]
        return line + self.writer_name(choice.writer.identity) + ("" if value is None else " " + spelled(value))

    def final_values(self):
        """What the committed transactions leave, one after the other in order of their versions."""
        committed = [slot.transaction for slot in self.named.values() if self.outcome(slot) == COMMIT]
        values = {}
        for transaction in sorted(committed, key=lambda transaction: transaction.version):
            values.update(transaction.writes)
        return sorted((key, value) for key, value in values.items() if value is not None)

    def report(self):
        lines = []
        for name, slot in self.named.items():
            lines.append(f"tx {name} {self.outcome(slot)}")
            chosen = sorted(key for key in slot.replies if key in slot.choices)
            lines += [self.read_line(name, key, slot.choices[key]) for key in chosen]
        lines += [f"key {spelled(key)} {spelled(value)}" for key, value in self.final_values()]
        return lines + [f"end {len(self.pool)}"]

    def totals(self):
        """How many of its transactions there are of each outcome."""
        outcomes = Counter(map(self.outcome, self.named.values()))
        return [f"{outcome} {outcomes[outcome]}" for outcome in (COMMIT, ABORT, OPEN)] + [f"end {len(self.pool)}"]


def text_of(lines):
    return "".join(line + "\n" for line in lines)


def played(text):
    """The run of a schedule. The header is the first of its lines, of which empty ones and comments are none."""
    header, *lines = [line.split(" ") for line in text.split("\n") if line and not line.startswith("#")]
    strange = [kind for kind, *_ in lines if not hasattr(Run, f"line_{kind}")]
    if strange:
        raise LeftOut(f"`{strange[0]}`")
    run = Run(header)
    for kind, *tokens in lines:
        getattr(run, f"line_{kind}")(*tokens)
    run.test_leaves()
    return run


def replayed(path):
    return text_of(played(pathlib.Path(path).read_text()).report())


# ---- loads


def rotated(word, bits):
    return ((word << bits) | (word >> (32 - bits))) & 0xFFFFFFFF


def quarter_round(state, first, second, third, fourth):
    """RFC 8439, 2.1: each step adds a word to another, and turns the difference of that one and a third by so many bits."""
    steps = [(first, second, fourth, 16), (third, fourth, second, 12), (first, second, fourth, 8), (third, fourth, second, 7)]
    for target, added, mixed, bits in steps:
        state[target] = (state[target] + state[added]) & 0xFFFFFFFF
        state[mixed] = rotated(state[mixed] ^ state[target], bits)


def key_block(key, number):
    """A block of ChaCha20's key stream, as sixteen words: RFC 8439, 2.3, with a number of 64 bits and the nonce 0."""
    start = list(struct.unpack("<16I", b"expand 32-byte k" + key + struct.pack("<QQ", number, 0)))
    state = list(start)
    for _ in range(10):
        for column in range(4):
            quarter_round(state, *(4 * row + column for row in range(4)))
        for column in range(4):
            quarter_round(state, *(4 * row + (column + row) % 4 for row in range(4)))
    return [(word + added) & 0xFFFFFFFF for word, added in zip(state, start)]


def drawn_words(seed):
    """The words that are drawn from a number, without end."""
    key, number = struct.pack("<Q", seed) + bytes(24), 0
    while True:
        yield from key_block(key, number)
        number += 1


def load_lines(seed, count):
    """The schedule of so many transactions, each of which reads a key and writes it and another; four words are drawn for each."""
    words, clients = drawn_words(seed), []
    yield "basil 1 f=1 shards=2 reads=2 delta=1000000 clock=0 keys=plain"
    for number in range(1, count + 1):
        client, read, other, rounds = (next(words) % below for below in (8, 16, 16, 4))
        clients.append(client + 1)
        yield from [f"begin t{number} {client + 1} {number}", f"read t{number} k{read}", "round", "round"]
        written = [read] if other == read else [read, other]
        yield from [f"write t{number} k{key} v{number}" for key in written]
        yield from [f"prepare t{number}"] + ["round"] * rounds
    yield from [f"settle t{number} {client}" for number, client in enumerate(clients, 1)] + ["round"] * 4


def load_text(seed, count):
    return text_of(load_lines(int(seed), int(count)))


def digest_row(seed, count):
    text = load_text(seed, count).encode()
    return f"{len(text)} {hashlib.sha256(text).hexdigest()}"


def load_totals(seed, count):
    return text_of(played(load_text(seed, count)).totals())


# ---- what is compared

TOTALS = re.compile(r'\(\s*"(\d+)",\s*"(\d+)",\s*b"(commit [^"]*)",?\s*\)')
DIGESTED = re.compile(r'seed: ([\d_]+),\s*count: (\d+),\s*len: (\d+),\s*digest: "(\w+)"')


def rows_of(path, pattern):
    """The rows of a table in a source."""
    rows = pattern.findall(path.read_text())
    if not rows:
        sys.exit(f"no rows in {path}")
    return rows


def compared_loads(top):
    """A name for each load in the examples and the tests, what is wanted, and what this program gives."""
    for kind, made in (("generate", load_text), ("load", load_totals)):
        for path in sorted(top.glob(f"examples/*/*.{kind}.arguments")):
            _, seed, count = [line for line in path.read_text().split("\n") if line and not line.startswith("#")]
            yield path.name, path.with_suffix(".stdout").read_text(), made(seed, count)
    for seed, count, totals in rows_of(top / "crates/basil_rows/src/loads.rt", TOTALS):
        yield f"load {seed} {count}", totals.replace("\\n", "\n"), load_totals(seed, count)
    for seed, count, *row in rows_of(top / "crates/text_rows/src/loads/texts.rt", DIGESTED):
        seed = seed.replace("_", "")
        yield f"generate {seed} {count}", " ".join(row), digest_row(seed, count)


def compared_schedules(top, left_out):
    """The same for each schedule in the examples. Counts those that are left out by the reasons."""
    for path in sorted([*top.glob("examples/*.schedule"), *top.glob("examples/*/*.schedule")]):
        beside = path.parent / (path.name + ".stdout")
        if (path.parent / (path.name + ".status")).exists():
            left_out["a run that ends early"] += 1
            continue
        try:
            found = replayed(path)
        except LeftOut as reason:
            left_out[str(reason)] += 1
            continue
        yield str(path.relative_to(top)), beside.read_text(), found


def compare(top):
    """Whether everything agrees, and something was compared."""
    left_out = Counter()
    compared = [*compared_schedules(top, left_out), *compared_loads(top)]
    differing = [row for row in compared if row[1] != row[2]]
    for reason, count in left_out.most_common():
        print(f"left out: {count} schedules with {reason}")
    for name, wanted, found in differing:
        print(f"{name}\n  wanted {wanted!r}\n  found  {found!r}")
    print(f"{len(compared)} schedules, {len(differing)} differ")
    return bool(compared) and not differing


def main(arguments):
    calls = {("replay", 2): replayed, ("generate", 3): load_text, ("load", 3): load_totals}
    call = calls.get((arguments[0], len(arguments))) if arguments else None
    if call:
        try:
            print(call(*arguments[1:]), end="")
        except LeftOut as reason:
            sys.exit(f"left out: {reason}")
        return 0
    if len(arguments) != 1:
        sys.exit("usage: schedules.py TOP, or replay FILE, or generate or load NUMBER COUNT")
    return 0 if compare(pathlib.Path(arguments[0])) else 1


if __name__ == "__main__":
    sys.exit(main(sys.argv[1:]))
