#!/usr/bin/env python3
"""Plays the test scenes of a client on a model of a client's rules, and compares every answer.

    python3 client_scenes.py CRATES

CRATES is the folder that holds `client_scenes` and `client_rows`. A scene is a list of phrases: what a client is asked or what
comes to it, and as a short text what it answers and sends. This program reads the scenes out of the sources, hands each phrase to
a client that is written here from the protocol's rules alone, and compares the texts. A row of frames' names, or of versions, is a
scene of one phrase.

Messages are handed over as values and not as the bytes of frames, so phrases that are about those bytes are left out. A signature
is modelled as the words that it signs, which name who signs, and a spoiled one as none; a client's own is its leaf's number, and
none where another client signed with a plain key. Ids are real.

Each phrase that differs is printed with both texts, and what is left out with the reason. The last line counts phrases, scenes and
differences; the status is 1 where something differs.
"""

import copy
import hashlib
import pathlib
import re
import sys
from collections import Counter, namedtuple
from types import SimpleNamespace as Record


class Refused(Exception):
    """A call or a message is refused; the text says why."""


def refuse(where, why):
    if where:
        raise Refused(why)


# ---- the tables of a source

TOKEN = re.compile(r'\s+|//[^\n]*|"(?P<text>(?:[^"\\]|\\.)*)"|(?P<number>\d+)|(?P<word>[A-Za-z_]\w*)|(?P<mark>::|\.\.|.)',
                   re.S)


class Tables:
    """The constants of a source as values: texts, numbers, lists, and structs as dictionaries. A name stands for its constant,
    and else for itself; a call is a pair of the name and the arguments."""

    def __init__(self, path):
        found = TOKEN.finditer(path.read_text())
        self.tokens = [(match.lastgroup, match[match.lastgroup]) for match in found if match.lastgroup]
        self.constants = {}
        for place, token in enumerate(self.tokens):
            if token == ("word", "const") and self.tokens[place + 2] == ("mark", ":"):
                self.at = self.tokens.index(("mark", "="), place) + 1
                name, value = self.tokens[place + 1][1], self.value()
                self.constants[name] = {**value, "name": name} if isinstance(value, dict) else value

    def calls(self, *names):
        """The arguments of each call of one of these functions, in order."""
        for place, (_, token) in enumerate(self.tokens):
            if token in names and self.tokens[place + 1] == ("mark", "(") and self.tokens[place - 1] != ("word", "fn"):
                self.at = place
                yield self.value()[1]

    def skip(self, mark):
        """Whether this mark stands next, which is passed over then."""
        stands = self.tokens[self.at] == ("mark", mark)
        self.at += stands
        return stands

    def word(self):
        self.at += 1
        return self.tokens[self.at - 1][1]

    def value(self):
        while self.skip("&"):
            pass
        kind, token = self.tokens[self.at][0], self.word()
        if kind == "mark":
            return self.items({"[": "]", "(": ")"}[token])
        return {"text": lambda text: re.sub(r"\\\n\s*", "", text), "number": int, "word": self.named}[kind](token)

    def items(self, end):
        items = []
        while not self.skip(end):
            items.append(self.value())
            if self.skip(";"):
                items *= self.value()
            self.skip(",")
        return items

    def named(self, name):
        while self.skip("::") or self.skip("."):
            name = self.word()
        if self.skip("("):
            return name, self.items(")")
        return self.struct() if name[0].isupper() and self.skip("{") else self.constants.get(name, name)

    def struct(self):
        fields, base = {}, {}
        while not self.skip("}"):
            if self.skip(".."):
                base = self.value()
            else:
                name = self.word()
                self.skip(":")
                fields[name] = self.value()
            self.skip(",")
        return {**base, **fields, "name": None}


# ---- transactions

COMMIT, ABORT = "commit", "abort"
Version = namedtuple("Version", "time client id")
GENESIS = Version(0, 0, bytes(32))


class Cluster(namedtuple("Cluster", "f shards reads")):
    """How many replicas of a shard may be faulty, how many shards there are, and how many replies a read waits for."""

    replicas = fast_commit = property(lambda self: 5 * self.f + 1)
    log_quorum = property(lambda self: 4 * self.f + 1)
    commit_tally = fast_abort = property(lambda self: 3 * self.f + 1)
    abort_tally = property(lambda self: self.f + 1)

    def shard_of(self, key):
        return sum(key) % self.shards


def spell(value, size=1):
    return value.to_bytes(size, "big")


def spell_sized(content, size=1):
    return spell(len(content), size) + content


class Transaction(namedtuple("Transaction", "time client reads writes")):
    """Reads are of a key, a version, and whether it's a dependency; writes of a key and its value, or None that deletes it."""

    @property
    def id(self):
        """The digest of the canonical bytes, which have another format where some write deletes."""
        deletes = any(value is None for _, value in self.writes)
        text = spell(1 + deletes) + spell(self.time, 8) + spell(self.client) + spell(len(self.reads))
        for key, (time, client, identity), dependency in self.reads:
            text += spell_sized(key) + spell(time, 8) + spell(client) + identity + spell(dependency)
        text += spell(len(self.writes))
        for key, value in self.writes:
            text += spell_sized(key) + spell(value is not None)[: deletes] + (b"" if value is None else spell_sized(value, 2))
        return hashlib.sha256(text).digest()

    version = property(lambda self: Version(self.time, self.client, self.id))

    def form_fault(self):
        """What keeps it from a good form, or None."""
        if not self.reads and not self.writes:
            return "Empty"
        above = (f"ReadNotBelow({place})" for place, (_, version, _) in enumerate(self.reads) if version >= self.version)
        return next(above, None) if self.time else "ZeroTime"

    def involved(self, cluster):
        return sorted({cluster.shard_of(key) for key, *_ in self.reads + self.writes})

    def log_shard(self, cluster):
        shards = self.involved(cluster)
        return shards[self.time % len(shards)]

    def missed(self, writer):
        """Whether it read a version below the writer's of a key that this one wrote, and is itself above the writer."""
        return any(key in dict(writer.writes) and version < writer.version < self.version for key, version, _ in self.reads)

    def conflicts(self, other):
        return self.id != other.id and (self.missed(other) or other.missed(self))


# ---- what replicas sign, and certificates

class Vote(namedtuple("Vote", "shard replica id decision proof signature", defaults=[None, None])):
    """A vote. The proof of an abort is a committed transaction with its certificate."""

    words = property(lambda self: ("vote", *self[:4]))


class Log(namedtuple("Log", "shard replica id decision decided current signature", defaults=[None])):
    """A log reply, with the views in which it was decided and that is current."""

    words = property(lambda self: ("log", *self[:6]))


class Reply(namedtuple("Reply", "shard replica key time client committed prepared signature", defaults=[None])):
    """A read reply. It may carry a committed transaction with its certificate, and a prepared one."""

    words = property(lambda self: ("reply", *self[:5], *self.versions))
    carried = property(lambda self: [found for found in (self.committed and self.committed[0], self.prepared) if found])

    @property
    def versions(self):
        return self.committed[0].version if self.committed else GENESIS, self.prepared.version if self.prepared else GENESIS


Writeback = namedtuple("Writeback", "transaction certificate")


class Certificate(namedtuple("Certificate", "kind id decision tallies other proof", defaults=[None, None])):
    """Of the kind `fast`, `abort`, `conflict` or `logged`. The tallies have the votes of each shard, or for `logged` its log
    replies. A conflict has one vote, and the other transaction with its proof, a certificate that commits it."""

    @property
    def parts(self):
        """The signed parts in order, those of the proof last."""
        own = [part for parts in self.tallies.values() for part in parts]
        return own + (self.proof.parts if self.proof else [])

    def not_involved(self, cluster, transaction):
        """The shards that are listed and shouldn't be, or else those that should be and aren't listed."""
        involved, listed = set(transaction.involved(cluster)), set(self.tallies)
        if self.kind == "logged":
            return sorted(listed - {transaction.log_shard(cluster)})
        return sorted(listed - involved) or sorted(involved - listed if self.kind == "fast" else [])

    def faults(self, cluster, transaction, decision):
        """The faults that come before a conflict is tested, each or None, in order."""
        needed = {"fast": cluster.fast_commit, "abort": cluster.fast_abort, "logged": cluster.log_quorum}.get(self.kind, 1)
        counts = [len(parts) for parts in self.tallies.values() if len(parts) < needed]
        return [
            "WrongId" if self.id != transaction.id else None,
            "Mixed" if self.decision != decision else None,
            next((f"NotInvolved({shard})" for shard in self.not_involved(cluster, transaction)), None),
            next((f"Few {{ count: {count}, needed: {needed} }}" for count in counts), None),
        ]


def test_certificate(cluster, transaction, certificate, decision, rival=None):
    """Refuses what doesn't certify this decision on a transaction of good form, or where it doesn't conflict with a rival, which
    is tested right before the signatures. The other transaction of a conflict is such a rival and has to be committed; of one
    without a good form nothing else is tested. Of one kind the outer certificate's fault comes before the proof's."""
    faults = [certificate.faults(cluster, transaction, decision)]
    if certificate.kind == "conflict":
        rival = certificate.other
        faults += [] if rival.form_fault() else [certificate.proof.faults(cluster, rival, COMMIT)]
    faults = [fault for kind in zip(*faults) for fault in kind]
    faults += ["NoConflict"] * bool(rival and (rival.form_fault() or not transaction.conflicts(rival)))
    faults += [f"BadSignature({place})" for place, part in enumerate(certificate.parts) if part.signature != part.words]
    for fault in filter(None, faults):
        raise Refused(f"BadCertificate({fault})")


# ---- the pursuit of a decision

def lowest(tallies):
    return dict(sorted(tallies.items())[:1])


class Pursuit:
    """A formed transaction with its client's signature, and what counts of the votes, log replies and certificates that came."""

    def __init__(self, cluster, transaction, signature):
        self.cluster, self.transaction, self.signature, self.id = cluster, transaction, signature, transaction.id
        self.shards, self.log_shard = transaction.involved(cluster), transaction.log_shard(cluster)
        self.votes, self.logs, self.outcome = {}, [], None

    held = property(lambda self: len(self.votes) + len(self.logs))

    def take(self, message):
        """Refuses a message that isn't valid. A valid one counts while nothing is decided, of each replica the first vote and
        every log reply, and then the first rule that holds decides."""
        self.test(message)
        if self.outcome:
            return
        if isinstance(message, Vote):
            self.votes.setdefault((message.shard, message.replica), message)
        elif isinstance(message, Log):
            self.logs.append(message)
        else:
            self.outcome = message.certificate
        self.outcome = self.outcome or self.fast_commit() or self.fast_abort() or self.conflict() or self.logged()

    def test(self, message):
        if isinstance(message, Writeback):
            refuse(message.transaction.id != self.id, "NotMine")
            test_certificate(self.cluster, self.transaction, message.certificate, message.certificate.decision)
            return
        shards = self.shards if isinstance(message, Vote) else [self.log_shard]
        refuse(message.id != self.id or message.shard not in shards, "NotMine")
        refuse(message.signature != message.words, "BadSignature")
        if isinstance(message, Vote) and message.proof:
            refuse(message.proof[0].form_fault(), "BadCertificate(NoConflict)")
            test_certificate(self.cluster, *message.proof, COMMIT, self.transaction)

    def tallies(self, decision, needed):
        """The shards in which so many replicas voted so, each with the lowest of them."""
        votes = sorted((vote for vote in self.votes.values() if vote.decision == decision), key=lambda vote: vote.replica)
        voters = {shard: [vote for vote in votes if vote.shard == shard] for shard in self.shards}
        return {shard: votes[:needed] for shard, votes in voters.items() if len(votes) >= needed}

    def fast_commit(self):
        tallies = self.tallies(COMMIT, self.cluster.fast_commit)
        return Certificate("fast", self.id, COMMIT, tallies) if len(tallies) == len(self.shards) else None

    def fast_abort(self):
        tallies = self.tallies(ABORT, self.cluster.fast_abort)
        return Certificate("abort", self.id, ABORT, lowest(tallies)) if tallies else None

    def conflict(self):
        """By the earliest vote that has a proof."""
        proving = (vote for vote in self.votes.values() if vote.proof)
        return next((Certificate("conflict", self.id, ABORT, {vote.shard: [vote]}, *vote.proof) for vote in proving), None)

    def logged(self):
        """By the lowest replicas that logged one decision in one view, each by its earliest reply."""
        groups = {}
        for log in self.logs:
            groups.setdefault((log.decision, log.decided), {}).setdefault(log.replica, log)
        for (decision, _), logs in groups.items():
            if len(logs) >= self.cluster.log_quorum:
                logs = [logs[replica] for replica in sorted(logs)]
                return Certificate("logged", self.id, decision, {self.log_shard: logs[: self.cluster.log_quorum]})
        return None

    def second(self):
        """What may be logged with its tallies: a commit by those of each shard, or an abort by the lowest; None for neither."""
        commits = self.tallies(COMMIT, self.cluster.commit_tally)
        aborts = self.tallies(ABORT, self.cluster.abort_tally)
        if len(commits) == len(self.shards):
            return COMMIT, commits
        return (ABORT, lowest(aborts)) if aborts else None

    def latest_logs(self):
        """By replica the log reply with the greatest current view, the earliest among equals."""
        latest = {}
        for log in self.logs:
            if log.replica not in latest or log.current > latest[log.replica].current:
                latest[log.replica] = log
        return [latest[replica] for replica in sorted(latest)]


# ---- the client

LEAVES = 32


def choose(cluster, replies):
    """Which version is read by replies of a committed and a prepared version each, and whether it's a dependency."""
    committed = {GENESIS} | {version for version, _ in replies}
    prepared = [version for _, version in replies]
    version = max(committed | {version for version in prepared if prepared.count(version) >= cluster.f + 1})
    return version, version not in committed


class Slot:
    """A transaction that a client began, or recovers. A read of a key has the first reply of each replica, then its choice."""

    def __init__(self, time=None, pursuit=None):
        self.time, self.pursuit = time, pursuit
        self.reads, self.writes, self.second_started = {}, {}, False


def test_room(listed, key, value=None):
    refuse(key not in listed and len(listed) == 32, "TooMany")
    refuse(not 1 <= len(key) <= 64 or len(value or b"") > 256, "SizeOut")


class Client:
    """A client of a cluster. What it sends stands in the outbox, each message with the shards to whose replicas it goes."""

    def __init__(self, cluster, number, leaf):
        self.cluster, self.number, self.leaf = cluster, number, leaf
        self.last_time, self.slots, self.outbox, self.signed = 0, [], [], []

    def send(self, kind, shards, pursuit=None, **parts):
        if pursuit:
            parts.update(transaction=pursuit.transaction, signature=pursuit.signature)
        self.outbox.append((Record(kind=kind, **parts), shards))

    def begin(self, time):
        refuse(time <= self.last_time, f"TimeNotAbove({self.last_time})")
        self.last_time = time
        self.slots.append(Slot(time))
        return len(self.slots) - 1

    def write(self, slot, key, value=None):
        """Writes a value, or deletes the key where there is none."""
        refuse(slot.pursuit, "NotOpen")
        test_room(slot.writes, key, value)
        slot.writes[key] = value

    def read(self, slot, key):
        """Asks for a key that was neither written nor asked for."""
        refuse(slot.pursuit, "NotOpen")
        if key not in slot.writes and key not in slot.reads:
            test_room(slot.reads, key)
            slot.reads[key] = Record(replies={}, choice=None)
            self.send("read", [self.cluster.shard_of(key)], key=key, time=slot.time, client=self.number)

    def prepare(self, slot):
        refuse(slot.pursuit, "NotOpen")
        for key in sorted(slot.reads):
            refuse(not slot.reads[key].choice, f"ReadPending of {key.decode()}")
        refuse(not slot.reads and not slot.writes, "Empty")
        refuse(self.leaf == LEAVES, "Exhausted")
        reads = [(key, *slot.reads[key].choice) for key in sorted(slot.reads)]
        transaction = Transaction(slot.time, self.number, reads, sorted(slot.writes.items()))
        slot.pursuit = Pursuit(self.cluster, transaction, self.leaf)
        self.leaf += 1
        self.signed.append(transaction.id)
        self.send("st1", slot.pursuit.shards, slot.pursuit)

    def settle(self, slot):
        """Starts the second stage, once, where tallies allow it and nothing is decided."""
        refuse(not slot.pursuit, "NotPrepared")
        second = slot.pursuit.second()
        if second and not slot.second_started and not slot.pursuit.outcome:
            slot.second_started = True
            self.send("st2", [slot.pursuit.log_shard], slot.pursuit, decision=second[0], tallies=second[1])

    def invoke(self, slot):
        pursuit = slot.pursuit
        refuse(not pursuit, "NotPrepared")
        if not pursuit.outcome:
            refuse(not pursuit.logs, "NothingLogged")
            self.send("invoke", [pursuit.log_shard], pursuit, logs=pursuit.latest_logs())

    def slot_with(self, identity):
        return next((slot for slot in self.slots if slot.pursuit and slot.pursuit.id == identity), None)

    def recover(self, transaction, signature):
        """Pursues a signed transaction. One that is held keeps its slot, and with it the signature by which it's held."""
        refuse(transaction.form_fault(), f"BadTransaction({transaction.form_fault()})")
        slot = self.slot_with(transaction.id)
        if not slot:
            slot = Slot(pursuit=Pursuit(self.cluster, transaction, signature))
            self.slots.append(slot)
        self.send("recover", slot.pursuit.shards, slot.pursuit)
        return self.slots.index(slot)

    def receive(self, message):
        if isinstance(message, Reply):
            self.receive_reply(message)
            return
        slot = self.slot_with(message.transaction.id if isinstance(message, Writeback) else message.id)
        refuse(not slot, "NotMine")
        pursuit, decided = slot.pursuit, slot.pursuit.outcome
        pursuit.take(message)
        if pursuit.outcome and not decided:
            self.send("writeback", pursuit.shards, pursuit, certificate=pursuit.outcome)
        elif len(pursuit.votes) == len(pursuit.shards) * self.cluster.replicas:
            self.settle(slot)

    def receive_reply(self, reply):
        """Counts a valid reply, the first of each replica; with enough of them the choice is made."""
        asked = (slot.reads.get(reply.key) for slot in self.slots if slot.time == reply.time and self.number == reply.client)
        read = next(filter(None, asked), None)
        refuse(not read or read.choice or reply.shard != self.cluster.shard_of(reply.key), "NotMine")
        refuse(reply.signature != reply.words, "BadSignature")
        for carried in reply.carried:
            below = carried.version < Version(reply.time, reply.client, bytes(32))
            refuse(carried.form_fault() or reply.key not in dict(carried.writes) or not below, "BadVersion")
        if reply.committed:
            test_certificate(self.cluster, *reply.committed, COMMIT)
        read.replies.setdefault(reply.replica, reply)
        if len(read.replies) == self.cluster.reads:
            read.choice = choose(self.cluster, [reply.versions for reply in read.replies.values()])


# ---- phrases that spell transactions and messages

def cast_of(texts):
    """Transactions by their names, of texts like `D 30 3 a?A b=- +c=x2 +d /e`: the time, the client, the reads, of which `?`
    marks dependencies, and the writes, of which `/` marks deletions."""
    cast = {"-": Record(version=GENESIS, id=GENESIS.id)}
    for text in texts:
        name, time, client, *tokens = text.split()
        reads = [re.fullmatch(r"(\w+)([?=])(\S+)", token).groups() for token in tokens if token[0] not in "+/"]
        writes = [re.fullmatch(r"([+/])(\w+)=?(\S*)", token).groups() for token in tokens if token[0] in "+/"]
        reads = [(key.encode(), cast[writer].version, mark == "?") for key, mark, writer in reads]
        writes = [(key.encode(), (value or "x1").encode() if mark == "+" else None) for mark, key, value in writes]
        cast[name] = Transaction(int(time), int(client), reads, writes)
    return cast


def senders(token):
    """The shard, the index and the flaw of each replica of a token like `0:01x2`, where x spoils a signature."""
    shard, _, indices = token.partition(":")
    return [(int(shard), int(index), flaw) for flaw, index in re.findall(r"(x?)(\d)", indices)]


def signed(message, flaw):
    return message._replace(signature=None if flaw else message.words)


def certificate_in(cast, text, identity):
    """A certificate on this id: `fast 0:012345`, `abort 0:0123`, `logged commit 1 0:01234` or `conflict 0:3 E fast 0:012345`."""
    kind, *tokens = text.split()
    decision = tokens[0] if kind == "logged" else COMMIT if kind == "fast" else ABORT
    tallies, nested = {}, []
    if kind == "conflict":
        tokens, nested = tokens[:1], pair_in(cast, " ".join(tokens[1:]))
    for shard, index, flaw in [sender for token in tokens if ":" in token for sender in senders(token)]:
        part = Vote(shard, index, identity, decision)
        if kind == "logged":
            part = Log(shard, index, identity, decision, int(tokens[1]), int(tokens[1]))
        tallies.setdefault(shard, []).append(signed(part, flaw))
    return Certificate(kind, identity, decision, tallies, *nested)


def pair_in(cast, text):
    """A transaction with its certificate: `E fast 0:012345`, or with the id of F in the certificate `E/F fast 0:012345`."""
    names, _, certificate = text.partition(" ")
    name, _, other = names.partition("/")
    return cast[name], certificate_in(cast, certificate, cast[other or name].id)


def messages_of(cast, kind, rest):
    """The messages of a phrase, one by each of its senders: `vote 0:35 D abort by E fast 0:012345`, `log 0:4 D commit 1 3`,
    `reply 0:12 a 40 3 committed E fast 0:012345 prepared F`, or the one of `writeback D abort 0:0123`."""
    if kind == "writeback":
        return [Writeback(*pair_in(cast, rest))]
    rest, _, prepared = rest.partition(" prepared ")
    rest, _, carried = rest.replace(" by ", " committed ").partition(" committed ")
    who, name, *tokens = rest.split()
    pair = pair_in(cast, carried) if carried else None
    make = {
        "vote": lambda *replica: Vote(*replica, cast[name].id, *tokens, pair),
        "log": lambda *replica: Log(*replica, cast[name].id, tokens[0], *map(int, tokens[1:])),
        "reply": lambda *replica: Reply(*replica, name.encode(), *map(int, tokens), pair, cast[prepared] if prepared else None),
    }[kind]
    return [signed(make(shard, index), flaw) for shard, index, flaw in senders(who)]


# ---- scenes

def told_tallies(tallies):
    return "".join(f" {shard}:" + "".join(str(part.replica) for part in parts) for shard, parts in tallies.items())


class Stage:
    """A client with the transactions of its scene, and the texts that are told of it."""

    def __init__(self, scene, number):
        self.cluster, self.cast = Cluster(scene["f"], scene["shards"], scene["reads"]), cast_of(scene["cast"])
        self.client = Client(self.cluster, number, scene["leaf"])

    def name(self, identity):
        return next((name for name, role in self.cast.items() if role.id == identity), "another")

    def told_certificate(self, certificate, proven=True):
        """With the proof of a conflict, or without."""
        views = {f" {log.decision} {log.decided}" for log in certificate.parts if certificate.kind == "logged"}
        text = f" {certificate.kind}" + "".join(views) + told_tallies(certificate.tallies)
        if certificate.other:
            text += f" {self.name(certificate.other.id)}" + (self.told_certificate(certificate.proof) if proven else "")
        return text

    def told_message(self, message):
        """What is sent. A transaction that another client's plain key signed is told without its signature."""
        if message.kind == "read":
            return f"read {message.key.decode()} {message.time} {message.client}"
        text = f"{message.kind} {self.name(message.transaction.id)}"
        if message.kind == "invoke":
            logs = (f" {log.replica}{log.decision[0]}{log.decided}/{log.current}" for log in message.logs)
            return f"{text} {message.logs[0].shard}" + "".join(logs)
        if message.kind == "writeback":
            return text + self.told_certificate(message.certificate)
        if message.kind == "st2":
            text += f" {message.decision}" + told_tallies(message.tallies)
        return text + ("" if message.signature is None else f" #{message.signature}")

    def told_sent(self, client):
        """What a client sends, which is gone from its outbox then."""
        replicas = "".join(map(str, range(self.cluster.replicas)))
        sent, client.outbox = client.outbox, []
        told = ((self.told_message(message), "".join(f" {shard}:{replicas}" for shard in shards)) for message, shards in sent)
        return [f"{message} to{receivers}" for message, receivers in told]

    def value(self, slot, key):
        read = slot.reads.get(key)
        if not read:
            own = slot.writes.get(key)
            return "not read" if key not in slot.writes else "own deleted" if own is None else f"own {own.decode()}"
        if not read.choice:
            return "pending"
        for carried in (carried for reply in read.replies.values() for carried in reply.carried):
            if carried.version == read.choice[0]:
                value = dict(carried.writes)[key]
                return self.name(carried.id) + (" deleted" if value is None else f" gave {value.decode()}")
        return "absent"

    def formed(self, slot):
        if not slot.pursuit:
            return "none"
        return self.name(slot.pursuit.id) + (" plain" if slot.pursuit.signature is None else f" #{slot.pursuit.signature}")

    def held(self, slot):
        return str(slot.pursuit.held if slot.pursuit else 0)

    def outcome(self, slot):
        outcome = slot.pursuit and slot.pursuit.outcome
        return outcome.decision + self.told_certificate(outcome, proven=False) if outcome else "none"

    def told_slots(self):
        """All that the slots tell, of the keys a to e."""
        return [(self.formed(slot), self.held(slot), self.outcome(slot), [self.value(slot, bytes([key])) for key in b"abcde"])
                for slot in self.client.slots]

    def answer(self, phrase):
        """The answer to a question, or to what is asked or comes: what is sent, and `same` where no slot tells anything new."""
        token, *tokens = phrase.split(" ")
        if token == "signed":
            return " ".join(map(self.name, self.client.signed))
        if token in ("value", "formed", "held", "outcome"):
            return getattr(self, token)(self.client.slots[int(tokens[0])], *(key.encode() for key in tokens[1:]))
        before = self.told_slots()
        return "; ".join(self.told_asks(token, tokens)) or ("same" if self.told_slots() == before else "")

    def told_asks(self, token, tokens):
        """What is told of each ask of a phrase. What is asked behind `drop` is planned and given up, and tells its refusal alone,
        as reads and writes of many keys do."""
        texts = []
        for ask in self.asks(*tokens) if token == "drop" else self.asks(token, *tokens):
            client = copy.deepcopy(self.client) if token == "drop" else self.client
            try:
                slot = ask(client)
                told = [f"slot {slot}"] * (slot is not None) + self.told_sent(client)
                texts += [] if token in ("drop", "reads", "writes") else told
            except Refused as refused:
                texts.append(f"refused {refused}")
        return texts

    def asks(self, token, *tokens):
        """What a phrase asks of a client: its call, or that it takes one message after the other. `a*65` spells 65 letters, and
        `reads 0 32` is of the keys r0 to r31."""
        if token in ("vote", "log", "reply", "writeback"):
            messages = messages_of(self.cast, token, " ".join(tokens))
            return [lambda client, message=message: client.receive(message) for message in messages]
        if token == "begin":
            return [lambda client: client.begin(int(tokens[0]))]
        if token == "recover":
            return [lambda client: client.recover(self.cast[tokens[0]], None)]
        place, call = int(tokens[0]), {"reads": "read", "writes": "write", "delete": "write"}.get(token, token)
        parts = [re.sub(r"(.)\*(\d+)", lambda found: found[1] * int(found[2]), part).encode() for part in tokens[1:]]
        calls = [parts]
        if token in ("reads", "writes"):
            calls = [[f"{token[0]}{number}".encode()] + [b"v"] * (token == "writes") for number in range(int(tokens[1]))]
        return [lambda client, parts=parts: getattr(client, call)(client.slots[place], *parts) for parts in calls]


# ---- rows of frames' names, and of versions

def message_named(cast, name, shards):
    """The message of a name: `c02` and `a02` are votes of replica 2 of shard 0, `p02` one with a proof, `C0213` and `A0213` its
    log reply, decided in view 1, with view 3 current; `w` and `x` are writebacks."""
    who, views = ":".join(name[1:3]), " ".join(name[3:])
    phrase = {
        "c": f"vote {who} A commit", "a": f"vote {who} A abort", "p": f"vote {who} A abort by R fast {shards - 1}:012345",
        "C": f"log {who} A commit {views}", "A": f"log {who} A abort {views}", "x": "writeback A abort 0:0123",
        "w": "writeback A fast" + "".join(f" {shard}:012345" for shard in range(shards)),
    }[name[0]]
    return messages_of(cast, *phrase.split(" ", 1))[0]


def pursue(shards, names):
    """A pursuit that took the messages of these names, and what it was before the last that it took. At `u` the last one is taken
    back; `!` stands before one that has to be refused."""
    cast = cast_of(["A 10 1 +a" if shards == 1 else "A 10 1 +a +b", "R 30 1 a=-"])
    pursuit = before = Pursuit(Cluster(f=1, shards=shards, reads=2), cast["A"], None)
    for name in names.split():
        if name == "u":
            pursuit = before
            continue
        after = copy.deepcopy(pursuit)
        try:
            after.take(message_named(cast, name.strip("!"), shards))
        except Refused:
            if not name.startswith("!"):
                raise
        else:
            refuse(name.startswith("!"), f"{name} is taken")
            pursuit, before = after, pursuit
    return pursuit, before


def told_outcome(certificate):
    if certificate and certificate.kind == "logged":
        logs = certificate.parts
        return f"logged {certificate.decision} in {logs[0].decided}:" + "".join(f" {log.replica}@{log.current}" for log in logs)
    kinds = {"fast": "fast commit", "abort": "fast abort", "conflict": "conflict"}
    return kinds[certificate.kind] + told_tallies(certificate.tallies) if certificate else ""


def told_row(table, shards, names):
    """What a row of this table tells of a pursuit."""
    try:
        pursuit, before = pursue(shards, names)
    except Refused as refused:
        return [f"refused {refused}"]
    second = pursuit.second()
    logs = [f" {log.replica}@{log.current} {log.decision} {log.decided}" for log in pursuit.latest_logs()]
    return {
        "OUTCOMES": [told_outcome(pursuit.outcome)], "HELD": [str(pursuit.held)],
        "UNDONE": [f"{before.held} {told_outcome(before.outcome)}".strip()],
        "SECONDS": [second[0] + told_tallies(second[1]) if second else ""],
        "INVOKES": [f"{pursuit.log_shard}:" + "".join(logs) if logs else ""],
    }[table]


VERSIONS = {0: GENESIS, 3: Version(3, 1, bytes([7] * 32)), 5: Version(5, 2, bytes([1] * 32))}


def told_choice(committed, prepared):
    """The version that is chosen of two replies, as the table has it, and whether it's a dependency."""
    replies = [tuple(map(VERSIONS.get, reply)) for reply in zip(committed, prepared)]
    version, dependency = choose(Cluster(f=1, shards=1, reads=2), replies)
    return [next(time for time in committed + prepared if VERSIONS[time] == version), str(dependency).lower()]


# ---- all that is played

LEFT_OUT = {
    "NO_FRAMES": "it's about the first fault in a frame's bytes",
    **{f"TOLD[{place}]": "the reply to a read is handed over in hex" for place in range(3)},
    "SPELLED": "it's about the bytes of frames",
    "SENT, the last frame of each scene": "it's told in hex",
    "FAULTS": "a byte of a frame is changed in each row",
}


def scenes_in(value, name):
    """The scenes in an argument of a player, with their names. A scene may stand in a pair with the bytes of its last frame."""
    if isinstance(value, list) and isinstance(value[-1], str):
        value = value[0]
    if isinstance(value, dict):
        return [(value["name"] or name, value)]
    return [scene for place, item in enumerate(value) for scene in scenes_in(item, f"{name}[{place}]")]


def played(scene, number):
    """The phrases of a scene, each with the text that is expected and the model's, or None where the phrase is left out."""
    stage = Stage(scene, number)
    for phrase, expected in scene["steps"]:
        yield phrase, expected, None if phrase.startswith("frame ") else stage.answer(phrase)


def played_scenes(folder):
    """Each scene that the tests of a folder play: its name and its phrases."""
    for path in sorted(folder.glob("*.rt")):
        tables = Tables(path)
        for _, _, number, scenes in tables.calls("plays", "plays_alike", "ends_in"):
            names = [name for name, value in tables.constants.items() if value is scenes]
            yield from ((name, played(scene, number)) for name, scene in scenes_in(scenes, *names or [path.name]))


def played_rows(folder):
    """The same of the rows of a folder, each as a scene of one phrase."""
    for path, names in (("pursuits.rt", ["OUTCOMES"]), ("stages.rt", ["SECONDS", "INVOKES"]), ("undone.rt", ["HELD", "UNDONE"])):
        tables = Tables(folder / path)
        for table in names:
            for shards, tokens, *expected in tables.constants[table]:
                yield table, [(tokens, expected, told_row(table, shards, tokens))]
    tables = Tables(folder / "choices.rt")
    for committed, prepared, *expected in tables.constants["CHOSEN"]:
        yield "choices", [(f"{committed} {prepared}", expected, told_choice(committed, prepared))]


def main(crates):
    scenes = phrases = differ = 0
    left_out = Counter()
    for name, pairs in [*played_scenes(crates / "client_scenes" / "src"), *played_rows(crates / "client_rows" / "src")]:
        if name in LEFT_OUT:
            continue
        scenes += 1
        for phrase, expected, found in pairs:
            left_out[name] += found is None
            phrases += found is not None
            if found not in (None, expected):
                differ += 1
                print(f"{name}: {phrase}\n  expected: {expected}\n  found:    {found}")
    for name, count in (+left_out).items():
        print(f"left out: phrases of {name}, {count} in all: a frame is handed over in hex")
    for name, reason in LEFT_OUT.items():
        print(f"left out: {name}: {reason}")
    print(f"{phrases} phrases of {scenes} scenes, {differ} differ")
    return differ > 0


if __name__ == "__main__":
    sys.exit(main(pathlib.Path(sys.argv[1])))
