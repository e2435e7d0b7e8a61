#!/usr/bin/env python3
"""Plays the scenes of the replica's tests on a model of the protocol, and compares the answers.

    python3 replica_scenes.py crates/replica_rows/src/scenes

A scene hands frames, which short phrases spell, to one replica, and says as a text what the replica answers to each. This
program reads the scenes from the sources of the tests and hands their frames to a replica of its own. That one is written
from the rules of the protocol alone, over lists that are searched whole, and shares no code with the replica that is tested.
Nothing but Python's standard library is needed.

Frames are values here. A signature is its signer, the words, and the leaf that made it: the replica of a scene has a key of
32 leaves, one for each signature; the others have plain keys, which have none. Bytes are spelled for transactions alone,
since ids are digests of them and ids order versions. Tables that hold frames in hex are left out.

Each difference is printed, and what is left out with the reason. The last line counts the phrases, the scenes and the
differences. The exit status is 1 where there are any, or no phrases.
"""

import ast
import copy
import hashlib
import pathlib
import re
import sys
from dataclasses import dataclass, field
from types import SimpleNamespace as Part

MOMENT, DELTA = 50, 100  # the replica's clock, and how far a time may be above it
LEAVES = 32
COMMIT, ABORT = "commit", "abort"
GENESIS = (0, 0, bytes(32))  # a version is a time, a client and an id
GREATEST = (1 << 64) - 1
# With one faulty replica of a shard at most:
REPLICAS = FAST_COMMIT = 6
LOG_QUORUM = 5
COMMIT_TALLY = FAST_ABORT = 4
MAJORITY = 3
ABORT_TALLY = 2


class Refusal(Exception):
    """Why a replica refuses a frame."""


# Transactions.


def bytes_of(transaction):
    """The only spelling of a transaction, of which its id is the digest."""

    def text(value, size=1):
        return len(value).to_bytes(size, "big") + value.encode()

    data = bytes([1]) + transaction.time.to_bytes(8, "big") + bytes([transaction.client, len(transaction.reads)])
    for read in transaction.reads:
        time, client, identity = read.version
        data += text(read.key) + time.to_bytes(8, "big") + bytes([client]) + identity + bytes([read.dependency])
    writes = [text(key) + text(value, 2) for key, value in transaction.writes.items()]
    return data + bytes([len(writes)]) + b"".join(writes)


def form_fault(transaction):
    """Why a transaction has no good form; None where it has."""
    if not transaction.reads and not transaction.writes:
        return "Empty"
    if transaction.time == 0:
        return "ZeroTime"
    above = [place for place, read in enumerate(transaction.reads) if read.version >= transaction.version]
    return f"ReadNotBelow({above[0]})" if above else None


def shard_of(key, shards):
    return sum(key.encode()) % shards


def involved(transaction, shards):
    keys = [read.key for read in transaction.reads] + list(transaction.writes)
    return sorted({shard_of(key, shards) for key in keys})


def log_shard(transaction, shards):
    places = involved(transaction, shards)
    return places[transaction.time % len(places)]


def leader_of(transaction, view):
    return (transaction.time + view) % REPLICAS


def is_overtaken(reader, writer, counts):
    """Whether the writer wrote a key that counts between the version that the reader read of it and the reader's own."""
    reads = [read for read in reader.reads if read.key in writer.writes and counts(read.key)]
    return any(read.version < writer.version < reader.version for read in reads)


def conflict(one, other, counts=lambda key: True):
    return one.id != other.id and (is_overtaken(one, other, counts) or is_overtaken(other, one, counts))


# Signatures. A party is ("c", 3) for client 3, and ("r", 0, 3) for replica 3 of shard 0. A signature is a party, words and a
# leaf, which is None for a plain key. A claim is the plain signature that is due, and the one that stands in its place.


def claims_of(shard, items, *words):
    return [((("r", shard, item.replica), words, None), item.signature) for item in items]


def vote_claims(tallies, identity, decision):
    return [claim for tally in tallies for claim in claims_of(tally.shard, tally.votes, "vote", identity, decision)]


def log_claims(shard, identity, replies):
    told = [(reply, (reply.decision, reply.decided, reply.current)) for reply in replies]
    return [claim for reply, views in told for claim in claims_of(shard, [reply], "log", identity, *views)]


def certificate_claims(certificate):
    kind, identity = certificate.kind, certificate.id
    if kind == "fast":
        return vote_claims(certificate.tallies, identity, COMMIT)
    if kind == "logged":
        return log_claims(certificate.shard, identity, certificate.replies)
    if kind == "abort":
        return vote_claims([certificate], identity, ABORT)
    vote = claims_of(certificate.shard, [certificate], "vote", identity, ABORT)
    return vote + certificate_claims(certificate.proof)


def reply_words(reply):
    committed = reply.committed.transaction.version if reply.committed else GENESIS
    prepared = reply.prepared.version if reply.prepared else GENESIS
    return "reply", reply.key, reply.time, reply.client, committed, prepared


def view_claims(frame):
    """Those of a word for a leader, or of the words for a proposal and the proposal."""
    about = frame.transaction.id, frame.view
    words = [claims_of(frame.shard, [word], "elect", *about, word.decision) for word in getattr(frame, "words", [])]
    return sum(words, []) + claims_of(frame.shard, [frame], frame.kind, *about, frame.decision)


def claims(frame):
    """The claims of a frame, in order of its bytes."""
    kind = frame.kind
    if kind in ("st1", "recover", "st2"):
        due = ("c", frame.transaction.client), ("transaction", frame.transaction.id), None
        votes = vote_claims(frame.tallies, frame.transaction.id, frame.decision) if kind == "st2" else []
        return [(due, frame.signature)] + votes
    if kind == "writeback":
        return certificate_claims(frame.certificate)
    if kind in ("elect", "decide"):
        return view_claims(frame)
    if kind in ("log", "invoke"):
        return log_claims(frame.shard, frame.id, [frame] if kind == "log" else frame.replies)
    words = ("vote", frame.id, frame.decision) if kind == "vote" else reply_words(frame)
    carried = frame.proof if kind == "vote" else frame.committed
    nested = certificate_claims(carried.certificate) if carried else []
    return nested + claims_of(frame.shard, [frame], *words)


def unaccepted(items):
    """The places of the claims that don't hold, from 0."""
    return [place for place, (due, given) in enumerate(items) if due != given]


# Certificates and tallies. What is wrong with them is a list of faults behind their ranks.


def decision_of(certificate):
    if certificate.kind == "logged":
        return certificate.decision
    return COMMIT if certificate.kind == "fast" else ABORT


def count_faults(items, needed):
    return [(4, f"Few {{ count: {len(items)}, needed: {needed} }}")] if len(items) < needed else []


def tally_faults(tallies, expected, needed):
    """What is wrong where exactly the expected shards owe votes."""
    listed = [tally.shard for tally in tallies]
    strays = [shard for shard in listed if shard not in expected]
    strays += [shard for shard in expected if shard not in listed]
    faults = [(3, f"NotInvolved({shard})") for shard in strays]
    return faults + [fault for tally in tallies for fault in count_faults(tally.votes, needed)]


def second_stage_faults(frame, shards):
    places, listed = involved(frame.transaction, shards), [tally.shard for tally in frame.tallies]
    if frame.decision == COMMIT:
        return tally_faults(frame.tallies, places, COMMIT_TALLY)
    if len(listed) != 1:
        return [(3, f"NotInvolved({listed[-1] if listed else places[0]})")]
    return tally_faults(frame.tallies, [shard for shard in listed if shard in places], ABORT_TALLY)


def certificate_faults(transaction, certificate, decision, shards):
    """Those of the outer pair stand before those of the pair inside."""
    kind, places = certificate.kind, involved(transaction, shards)
    faults = [(1, "WrongId")] if certificate.id != transaction.id else []
    if decision_of(certificate) != decision:
        faults.append((2, "Mixed"))
    if kind == "fast":
        return faults + tally_faults(certificate.tallies, places, FAST_COMMIT)
    if certificate.shard not in ([log_shard(transaction, shards)] if kind == "logged" else places):
        faults.append((3, f"NotInvolved({certificate.shard})"))
    if kind == "logged":
        return faults + count_faults(certificate.replies, LOG_QUORUM)
    if kind == "abort":
        return faults + count_faults(certificate.votes, FAST_ABORT)
    if form_fault(certificate.other):
        return faults + [(5, "NoConflict")]
    faults += certificate_faults(certificate.other, certificate.proof, COMMIT, shards)
    return faults + ([] if conflict(transaction, certificate.other) else [(5, "NoConflict")])


def test_proof(name, faults, items):
    """Refuses by the first fault of the lowest rank. A signature that isn't accepted ranks last."""
    faults = faults + [(6, f"BadSignature({place})") for place in unaccepted(items)]
    if faults:
        raise Refusal(f"{name}({min(faults, key=lambda fault: fault[0])[1]})")


# The replica.


@dataclass
class Entry:
    """A known transaction: its vote, as the frame that tells it, who asked while it waited, and its outcome."""

    transaction: Part
    vote: Part = None
    waits: bool = False
    askers: list = field(default_factory=list)
    outcome: str = None
    certificate: Part = None

    def is_prepared(self):
        return self.outcome is None and (self.waits or (self.vote is not None and self.vote.decision == COMMIT))

    def is_committed(self):
        return self.outcome == COMMIT


@dataclass
class Cell:
    """What is logged of a transaction, the clients that asked, and the frame that tells it, as long as it does."""

    decision: str
    decided: int
    current: int
    askers: set = field(default_factory=set)
    reply: Part = None

    def note(self, sender):
        if sender[0] == "c":
            self.askers.add(sender)


class Replica:
    """The book has the known transactions in order of arrival, the greatest noted read of each key, log cells by id, the
    words for leaders by id and view, and the next leaf."""

    def __init__(self, shards, shard, index, leaf):
        self.shards, self.shard, self.index, self.left = shards, shard, index, 0
        self.book = Part(known=[], noted={}, cells={}, words={}, leaf=leaf)

    def step(self, sender, frame):
        """The messages that answer a frame: receivers and frames. A frame that is refused leaves the book as it was."""
        before = copy.deepcopy(self.book)
        self.left = LEAVES - before.leaf
        try:
            self.test(frame)
            return self.answer(sender, frame)
        except Refusal:
            self.book = before
            raise

    def signed(self, spoken, **fields):
        """A frame of the replica's own with the next leaf's signature of these words, of which the first is the kind."""
        if self.book.leaf == LEAVES:
            raise Refusal(f"Exhausted({self.left})")
        signature = ("r", self.shard, self.index), spoken, self.book.leaf
        self.book.leaf += 1
        return Part(kind=spoken[0], shard=self.shard, replica=self.index, signature=signature, **fields)

    def test(self, frame):
        """The refusals for which the book isn't asked."""
        kind = frame.kind
        if getattr(frame, "fault", None):
            raise Refusal(f"BadFrame({frame.fault})")
        if kind in ("st1", "st2", "recover", "writeback", "elect", "decide") and form_fault(frame.transaction):
            raise Refusal(f"BadTransaction({form_fault(frame.transaction)})")
        if not self.is_addressed(frame):
            raise Refusal("NotMine")
        items = [] if kind == "read" else claims(frame)
        if kind == "writeback":
            decision = decision_of(frame.certificate)
            faults = certificate_faults(frame.transaction, frame.certificate, decision, self.shards)
            return test_proof("BadCertificate", faults, items)
        for place in unaccepted(items[:1] if kind == "st2" else items):
            raise Refusal(f"BadSignature({place})")
        if kind == "st2":
            test_proof("BadTally", second_stage_faults(frame, self.shards), items[1:])

    def is_addressed(self, frame):
        """Whether the kind, the key and the shard are this replica's."""
        if frame.kind in ("reply", "vote", "log"):
            return False
        if frame.kind == "read":
            return self.is_own(frame.key)
        if frame.kind in ("elect", "decide", "invoke") and frame.shard != self.shard:
            return False
        if frame.kind in ("st2", "elect", "decide"):
            return log_shard(frame.transaction, self.shards) == self.shard
        return frame.kind == "invoke" or self.shard in involved(frame.transaction, self.shards)

    def is_own(self, key):
        return shard_of(key, self.shards) == self.shard

    def find(self, identity):
        return next((entry for entry in self.book.known if entry.transaction.id == identity), None)

    def enter(self, transaction):
        """The entry of a transaction, which is known from now on."""
        if self.find(transaction.id) is None:
            self.book.known.append(Entry(transaction))
        return self.find(transaction.id)

    def answer(self, sender, frame):
        if frame.kind in ("st1", "st2", "recover", "invoke"):
            entry = self.find(frame.id if frame.kind == "invoke" else frame.transaction.id)
            if entry is not None and entry.outcome is not None:
                pair = {"transaction": entry.transaction, "certificate": entry.certificate}
                return [(sender, Part(kind="writeback", **pair))]
        return getattr(self, "take_" + frame.kind)(sender, frame)

    def take_read(self, sender, frame):
        if frame.time > MOMENT + DELTA:
            raise Refusal(f"FromFuture({MOMENT})")
        asked = frame.time, frame.client
        self.book.noted[frame.key] = max(asked, self.book.noted.get(frame.key, asked))
        committed, prepared = self.latest(frame, Entry.is_committed), self.latest(frame, Entry.is_prepared)
        reply = Part(key=frame.key, time=frame.time, client=frame.client)
        reply.committed = committed and Part(transaction=committed.transaction, certificate=committed.certificate)
        reply.prepared = prepared and prepared.transaction
        return [(sender, self.signed(reply_words(reply), **vars(reply)))]

    def latest(self, asked, counts):
        """The entry that counts with the latest write of a key below the time and client of a read; None where none has."""
        below = asked.time, asked.client, bytes(32)
        writers = [entry for entry in self.book.known if counts(entry) and asked.key in entry.transaction.writes]
        writers = [entry for entry in writers if entry.transaction.version < below]
        return max(writers, key=lambda entry: entry.transaction.version, default=None)

    def take_st1(self, sender, frame):
        entry = self.enter(frame.transaction)
        if entry.vote is None and not entry.waits:
            decision = self.verdict(entry.transaction)
            entry.waits = decision is None
            if decision is not None:
                self.vote(entry, decision, self.proof(entry.transaction) if decision == ABORT else None)
        if entry.vote is not None:
            return [(sender, entry.vote)]
        if sender not in entry.askers:
            entry.askers.append(sender)
        return []

    def dependencies(self, transaction):
        """A transaction's dependencies on keys of the shard: the reads, each with its entry or None."""
        reads = [read for read in transaction.reads if read.dependency and self.is_own(read.key)]
        return [(read, self.find(read.version[2])) for read in reads]

    def is_lost(self, read, entry):
        """Whether what a read depends on isn't known, is aborted, or is no write of the key at this version."""
        if entry is None or entry.outcome == ABORT:
            return True
        return entry.transaction.version != read.version or read.key not in entry.transaction.writes

    def verdict(self, transaction):
        """The vote on a transaction; None where it waits. Only keys of the shard count."""
        live = [entry.transaction for entry in self.book.known if entry.is_prepared() or entry.is_committed()]
        noted = [self.book.noted.get(key, (0, 0)) for key in transaction.writes if self.is_own(key)]
        dependencies = self.dependencies(transaction)
        if (
            transaction.time > MOMENT + DELTA
            or any(self.is_lost(*dependency) for dependency in dependencies)
            or any(conflict(transaction, other, self.is_own) for other in live)
            or any(asked > (transaction.time, transaction.client) for asked in noted)
        ):
            return ABORT
        return None if any(entry.outcome is None for _, entry in dependencies) else COMMIT

    def proof(self, transaction):
        """The earliest known committed transaction that conflicts on a key of the shard, with its certificate."""
        for entry in self.book.known:
            if entry.is_committed() and conflict(transaction, entry.transaction, self.is_own):
                return Part(transaction=entry.transaction, certificate=entry.certificate)
        return None

    def vote(self, entry, decision, proof=None):
        identity = entry.transaction.id
        entry.vote = self.signed(("vote", identity, decision), id=identity, decision=decision, proof=proof)
        entry.waits = False

    def take_st2(self, sender, frame):
        self.enter(frame.transaction)
        self.book.cells.setdefault(frame.transaction.id, Cell(frame.decision, 0, 0))
        return self.take_recover(sender, frame)

    def take_recover(self, sender, frame):
        cell = self.book.cells.get(frame.transaction.id)
        if cell is None:
            return self.take_st1(sender, frame)
        cell.note(sender)
        return [(sender, self.log_reply(frame.transaction.id, cell))]

    def log_reply(self, identity, cell):
        if cell.reply is None:
            views = {"decision": cell.decision, "decided": cell.decided, "current": cell.current}
            cell.reply = self.signed(("log", identity, *views.values()), id=identity, **views)
        return cell.reply

    def take_writeback(self, _sender, frame):
        """Records an outcome. Votes on what waits and depends on an abort by now, or on commits alone."""
        entry, sent = self.enter(frame.transaction), []
        if entry.outcome is not None:
            return []
        entry.outcome, entry.certificate, entry.waits = decision_of(frame.certificate), frame.certificate, False
        for waiting in [entry for entry in self.book.known if entry.waits]:
            outcomes = [found.outcome for _, found in self.dependencies(waiting.transaction)]
            if ABORT in outcomes or None not in outcomes:
                self.vote(waiting, ABORT if ABORT in outcomes else COMMIT)
                sent += [(asker, waiting.vote) for asker in waiting.askers]
        return sent

    def take_invoke(self, sender, frame):
        cell = self.book.cells.get(frame.id)
        if cell is None:
            raise Refusal("NotLogged")
        view = self.raised([reply.current for reply in frame.replies], cell.current)
        if view <= cell.current:
            raise Refusal(f"StaleView({cell.current})")
        cell.current, cell.reply = view, None
        cell.note(sender)
        transaction = self.find(frame.id).transaction
        fields = {"transaction": transaction, "decision": cell.decision, "view": view}
        elect = self.signed(("elect", frame.id, view, cell.decision), **fields)
        return [(("r", self.shard, leader_of(transaction, view)), elect)]

    def raised(self, views, current):
        """The view to which reported views raise the current one."""
        reports = {view: sum(other >= view for other in views) for view in views}
        passed = [view for view in views if reports[view] >= COMMIT_TALLY]
        if passed:
            return max(min(max(passed) + 1, GREATEST), current)
        return max([view for view in views if reports[view] >= ABORT_TALLY and view > current], default=current)

    def take_elect(self, _sender, frame):
        """Keeps a word. With enough words for one view the leader proposes what most of them name."""
        transaction, view = frame.transaction, frame.view
        if leader_of(transaction, view) != self.index:
            raise Refusal("NotLeader")
        words = self.book.words.setdefault((transaction.id, view), {})
        if frame.replica in words or len(words) == LOG_QUORUM:
            return []
        words[frame.replica] = Part(replica=frame.replica, decision=frame.decision, signature=frame.signature)
        if len(words) < LOG_QUORUM:
            return []
        commits = sum(word.decision == COMMIT for word in words.values())
        decision = COMMIT if commits >= MAJORITY else ABORT
        fields = {"transaction": transaction, "decision": decision, "view": view}
        fields["words"] = [words[replica] for replica in sorted(words)]
        decide = self.signed(("decide", transaction.id, view, decision), **fields)
        return [(("r", self.shard, replica), decide) for replica in range(REPLICAS)]

    def take_decide(self, _sender, frame):
        transaction, view, count = frame.transaction, frame.view, len(frame.words)
        if leader_of(transaction, view) != frame.replica:
            raise Refusal("NotLeader")
        cell = self.book.cells.get(transaction.id)
        if cell is not None and view < cell.current:
            raise Refusal(f"StaleView({cell.current})")
        if cell is not None and view <= cell.decided:
            raise Refusal(f"AlreadyDecidedIn({cell.decided})")
        agreeing = sum(word.decision == frame.decision for word in frame.words)
        if count != LOG_QUORUM or agreeing < MAJORITY:
            raise Refusal(f"BadElection {{ words: {count}, agreeing: {agreeing} }}")
        self.enter(transaction)
        cell = Cell(frame.decision, view, view, cell.askers if cell is not None else set())
        self.book.cells[transaction.id] = cell
        reply = self.log_reply(transaction.id, cell)
        return [(asker, reply) for asker in sorted(cell.askers)]


# Phrases, and the transactions that they name.


def number_in(token):
    return int("0" + re.sub(r"\D", "", token))


def decision_in(token):
    return ABORT if "a" in token else COMMIT


def read_in(token, cast):
    """`a=B` reads the version of B, or of genesis for `-`; `a?B` depends on it; `a~B` on B's id at a later time."""
    key, mark, name = re.fullmatch(r"([^=?~]+)([=?~])(.+)", token).groups()
    version = GENESIS
    if name != "-":
        time, client, identity = cast[name].version
        version = (time + (mark == "~"), client, identity)
    return Part(key=key, version=version, dependency=mark != "=")


def cast_of(texts):
    """The transactions that texts like `D 30 3 a?A b=- +c +d=x2` tell, by name: time, client, reads and writes."""
    cast = {}
    for text in texts:
        name, time, client, *items = text.split(" ")
        reads = [read_in(item, cast) for item in items if item[0] != "+"]
        writes = [item[1:].partition("=") for item in items if item[0] == "+"]
        transaction = Part(time=int(time), client=int(client), reads=reads)
        transaction.writes = {key: value or "x1" for key, _, value in writes}
        transaction.id = hashlib.sha256(bytes_of(transaction)).digest()
        transaction.version = (transaction.time, transaction.client, transaction.id)
        cast[name] = transaction
    return cast


class Phrase:
    """A frame in tokens, such as `c3 st2 D commit 0:0123 1:1234`, that comes to a replica of a shard."""

    def __init__(self, phrase, cast, shard):
        self.tokens, self.cast = phrase.split(" "), cast
        self.kind, self.index = self.tokens[1], number_in(self.tokens[0])
        self.sender = ("c", self.index) if self.tokens[0][0] == "c" else ("r", shard, self.index)
        self.shard = next((number_in(token) for token in self.tokens if token[0] == "@"), shard)
        self.transaction = cast.get(self.tokens[2]) if len(self.tokens) > 2 else None
        self.mark = "x" if "x" in self.tokens else ""

    def frame(self):
        return Part(kind=self.kind, **getattr(self, "tell_" + self.kind)())

    def signature(self, party, words, mark):
        """A plain signature, or where the mark has an x one that nobody accepts."""
        return party, words, "spoiled" if "x" in mark else None

    def item(self, shard, index, mark, *words, **fields):
        """What a replica signed."""
        return Part(replica=index, signature=self.signature(("r", shard, index), words, mark), **fields)

    def log(self, shard, index, mark, decision, decided, current):
        fields = {"decision": decision, "decided": decided, "current": current}
        return self.item(shard, index, mark, "log", self.transaction.id, *fields.values(), **fields)

    def pairs(self, start):
        return [tuple(token.split(":")) for token in self.tokens[start:] if ":" in token]

    def tallies(self, identity, decision, start):
        """The votes of tokens like `0:01x2`, where an x spoils that of the next replica."""
        tallies = [Part(shard=int(shard), votes=re.findall(r"(x?)(\d)", told)) for shard, told in self.pairs(start)]
        for tally in tallies:
            votes = [(tally.shard, int(index), mark) for mark, index in tally.votes]
            tally.votes = [self.item(*vote, "vote", identity, decision) for vote in votes]
        return tallies

    def certificate(self):
        kind, identity = self.tokens[3], self.transaction.id
        if kind == "fast":
            return Part(kind=kind, id=identity, tallies=self.tallies(identity, COMMIT, 4))
        if kind == "abort":
            return Part(kind=kind, id=identity, **vars(self.tallies(identity, ABORT, 4)[0]))
        if kind == "logged":
            decision, view = decision_in(self.tokens[4]), int(self.tokens[5])
            shard, replicas = self.tokens[6].split(":")
            replies = [self.log(int(shard), int(index), "", decision, view, view) for index in replicas]
            return Part(kind=kind, id=identity, shard=int(shard), decision=decision, decided=view, replies=replies)
        (shard, index), other = map(int, self.tokens[4].split(":")), self.cast[self.tokens[5]]
        proof = Part(kind="fast", id=other.id, tallies=self.tallies(other.id, COMMIT, 6))
        vote = self.item(shard, index, "", "vote", identity, ABORT)
        return Part(kind=kind, id=identity, shard=shard, other=other, proof=proof, **vars(vote))

    def tell_read(self):
        return {"key": self.tokens[2], "time": int(self.tokens[3]), "client": int(self.tokens[4])}

    def tell_st1(self):
        client, words = ("c", self.transaction.client), ("transaction", self.transaction.id)
        return {"transaction": self.transaction, "signature": self.signature(client, words, self.mark)}

    tell_recover = tell_st1

    def tell_st2(self):
        decision = decision_in(self.tokens[3])
        return {**self.tell_st1(), "decision": decision, "tallies": self.tallies(self.transaction.id, decision, 4)}

    def tell_writeback(self):
        return {"transaction": self.transaction, "certificate": self.certificate()}

    def tell_invoke(self):
        told = [(int(index), token) for index, token in self.pairs(3)]
        replies = [self.log(self.shard, index, token, decision_in(token), 0, number_in(token)) for index, token in told]
        return {"id": self.transaction.id, "shard": self.shard, "replies": replies}

    def tell_elect(self):
        """A word or a proposal. A view of 0 is out of range, behind the kind, the transaction and three bytes."""
        decision, view = decision_in(self.tokens[3]), int(self.tokens[4])
        fault = None if view else f"Range({len(bytes_of(self.transaction)) + 4})"
        word = self.item(self.shard, self.index, self.mark, self.kind, self.transaction.id, view, decision)
        place = {"transaction": self.transaction, "shard": self.shard, **vars(word)}
        return {**place, "decision": decision, "view": view, "fault": fault}

    def tell_decide(self):
        front, words = self.tell_elect(), []
        for told in [token for token in self.tokens[5:] if token[0].isdigit()]:
            spoken = "elect", self.transaction.id, front["view"], decision_in(told)
            words.append(self.item(self.shard, number_in(told), told, *spoken, decision=decision_in(told)))
        return {**front, "words": words}

    def tell_bytes(self):
        """What is no frame: no byte, one that is no kind, or a kind with nothing behind it."""
        kinds = [int(token) for token in self.tokens[2:]]
        return {"fault": "Short(0)" if not kinds else "Short(1)" if 1 <= kinds[0] <= 11 else "Kind"}

    def tell_nothing(self):
        """What goes to clients: no replica looks into it."""
        return {}

    tell_reply = tell_vote = tell_log = tell_nothing


# What a replica sent, as a text that is spelled as phrases are.


def tell_replicas(shard, items):
    return f" {shard}:" + "".join(str(item.replica) for item in items)


def tell_pair(names, transaction, certificate):
    """A transaction with its certificate."""
    kind, name = certificate.kind, names[transaction.id]
    if kind == "fast":
        return f"{name} fast" + "".join(tell_replicas(tally.shard, tally.votes) for tally in certificate.tallies)
    if kind == "logged":
        logged = f"{certificate.decision} {certificate.decided}"
        return f"{name} logged {logged}" + tell_replicas(certificate.shard, certificate.replies)
    if kind == "abort":
        return f"{name} abort" + tell_replicas(certificate.shard, certificate.votes)
    rival = tell_pair(names, certificate.other, certificate.proof)
    return f"{name} conflict {certificate.shard}:{certificate.replica} {rival}"


def tell_frame(names, frame):
    kind = frame.kind
    if kind == "reply":
        committed = tell_pair(names, **vars(frame.committed)) if frame.committed else "-"
        prepared = names[frame.prepared.id] if frame.prepared else "-"
        return f"read {frame.key} {frame.time} {frame.client} committed {committed} prepared {prepared}"
    if kind == "writeback":
        return "writeback " + tell_pair(names, frame.transaction, frame.certificate)
    text = f"{kind} {names[frame.id if kind in ('vote', 'log') else frame.transaction.id]} {frame.decision}"
    if kind == "vote":
        return text + (" by " + tell_pair(names, **vars(frame.proof)) if frame.proof else "")
    if kind == "log":
        return text + f" {frame.decided} {frame.current}"
    words = [f" {word.replica}{word.decision[0]}" for word in getattr(frame, "words", [])]
    return text + f" {frame.view}" + "".join(words)


def tell_signatures(frame):
    """The leaf of each signature that has one, and each signature that isn't the one that is due."""
    for (party, words, _), (signer, signed, leaf) in claims(frame):
        if (party, words) != (signer, signed):
            yield " unsigned"
        elif leaf is not None:
            yield f" #{leaf}"


def tell(cast, sent):
    """The messages in order; a frame that goes to one party after the other is told once."""
    names = {transaction.id: name for name, transaction in cast.items()}
    text, last = "", None
    for receiver, frame in sent:
        if frame != last:
            text += ("; " if text else "") + tell_frame(names, frame) + "".join(tell_signatures(frame)) + " to"
        text += f" {receiver[0]}{receiver[-1]}"
        last = frame
    return text


# The scenes, as they stand in the sources.

CONSTANT = re.compile(r"^(?:pub\S* )?const (\w+): [^=]+ =\s(.*?);$", re.MULTILINE | re.DOTALL)
TOKEN = re.compile(r'"(?:[^"\\]|\\.)*"|//[^\n]*|&|(?P<struct>\w+) *\{|(?P<field>[a-z]+):|(?P<name>[A-Z]\w*)')


def constants_of(source):
    """The constants of a source by name: literals, lists, tuples, and structs as maps; None where one is anything else."""
    constants = {}

    def turned(match):
        if match["name"]:
            return repr(constants[match["name"]])
        if match["field"]:
            return f"'{match['field']}':"
        return "{" if match["struct"] else match[0] if match[0][0] == '"' else ""

    for name, text in CONSTANT.findall(source):
        try:
            constants[name] = ast.literal_eval(TOKEN.sub(turned, text).strip())
        except (KeyError, SyntaxError, ValueError):
            constants[name] = None
    return constants


def scenes_of(source):
    """The scenes of a source by name, and the reasons why others are left out."""
    scenes, left_out = {}, {}
    for name, value in constants_of(source).items():
        items = value if isinstance(value, list) else [value]
        found = [item for item in items if isinstance(item, dict) and "steps" in item]
        scenes.update({f"{name}[{place}]" if items is value else name: item for place, item in enumerate(found)})
        if value is None:
            left_out[name] = "no literals, lists and structs alone"
        elif not found and isinstance(items[0], (dict, tuple)):
            left_out[name] = "frames in hex"
    missing = len(re.findall(r"(?<!struct )(?<!-> )\bScene \{", source)) - len(scenes)
    if missing:
        left_out[f"{missing} scenes"] = "not in constants"
    return scenes, left_out


def play(scene):
    """Each phrase of a scene, with what is wanted and what the model answers."""
    cast = cast_of(scene["cast"])
    replica = Replica(scene["shards"], scene["shard"], scene["index"], scene["leaf"])
    for text, wanted in scene["steps"]:
        phrase = Phrase(text, cast, replica.shard)
        if phrase.kind == "table":
            found = str(len(replica.book.known))
        elif phrase.kind == "cell":
            cell = replica.book.cells.get(phrase.transaction.id)
            found = f"{cell.decision} {cell.decided} {cell.current}" if cell else "none"
        else:
            try:
                found = tell(cast, replica.step(phrase.sender, phrase.frame()))
            except Refusal as refusal:
                found = f"refused {refusal}"
        yield text, wanted, found


def main(arguments):
    if len(arguments) != 1:
        sys.exit("usage: replica_scenes.py FOLDER")
    phrases = count = differences = 0
    for path in sorted(pathlib.Path(arguments[0]).glob("*.rt")):
        scenes, left_out = scenes_of(path.read_text())
        for name, reason in left_out.items():
            print(f"left out: {path.name} {name}: {reason}")
        for name, scene in scenes.items():
            count += 1
            for text, wanted, found in play(scene):
                phrases += 1
                if wanted != found:
                    differences += 1
                    print(f"{path.name} {name}: {text}\n  wanted {wanted}\n  found  {found}")
    print(f"{phrases} phrases of {count} scenes, {differences} differ")
    return 1 if differences or not phrases else 0


if __name__ == "__main__":
    sys.exit(main(sys.argv[1:]))
