"""The rules of docs/SEMANTICS.md, small and slow: what each site does at each event, and which messages it sends.

A trace doesn't say which event sent a message. So the picture asks these rules, and believes them as long as they print what the trace has.
"""
from dataclasses import dataclass, field
from typing import Optional

from . import polyvalues
from .polyvalues import Transaction
from .programs import Program, run_program

TICKS = 3
READ_NAMES = 11
HELD_NAMES = 12
HEADER_BYTES = 9
RECORD_BYTES = 5
EPOCH_BYTES = 5
OUTCOME_BYTES = 11
PROMISE_BYTES = 11
VALUE_BYTES = 6
LEAF_BYTES = 9
TEST_BYTES = 10
LONGEST_JOURNAL = 2**32


@dataclass
class Grant:
    """What a transaction holds at a participant: each item, and whether exclusively."""

    transaction: Transaction
    number: tuple
    wants: dict
    age: int = 0


@dataclass
class Entry:
    """What a coordinator knows of a transaction: its stage, the grants and values taken by site, and who has voted."""

    transaction: Transaction
    program: Program
    wants: dict
    is_voting: bool = False
    age: int = 0
    grants: dict = field(default_factory=dict)
    reads: dict = field(default_factory=dict)
    votes: set = field(default_factory=set)

    def awaited(self):
        """The participants that haven't answered, ascending."""
        answered = self.votes if self.is_voting else self.grants
        return [site for site in self.wants if site not in answered]


@dataclass
class Message:
    """A message, with the transaction, and what its kind has besides."""

    kind: str
    sender: int
    receiver: int
    transaction: Transaction
    content: tuple = ()
    number: int = -1


@dataclass
class Deed:
    """What a site is about to do: the messages that it sends, the lines that it prints, and the record that it appends first.

    `placed` is a transaction that is at its lock point then. A start makes a sync before, and `begins` the epoch.
    """

    sends: list = field(default_factory=list)
    lines: list = field(default_factory=list)
    record: Optional[tuple] = None
    placed: Optional[Transaction] = None
    syncs: int = 0
    begins: Optional[int] = None


def is_unsettled(text):
    """An item that a report says this of is held or in doubt."""
    return text.startswith("locked ") or " if " in text


class Site:
    """A site: its records and what they show, which outlast a stop, and its memory."""

    def __init__(self, number, items, limit):
        self.number = number
        self.declared = tuple(items)
        self.items = {name: item for name, item in items.items() if item.site == number}
        self.limit = limit
        self.outcomes = {}
        self.promises = {}
        self.writes = {name: [] for name in self.items}
        self.values = {name: item.value for name, item in self.items.items()}
        self.length = HEADER_BYTES + RECORD_BYTES + EPOCH_BYTES
        self.greatest_epoch = 1
        self.arm = None
        # Whether the gate of the root that isn't in force is 1: it is from the first checkpoint on that is done.
        self.other_open = False
        self.begin(1)

    def begin(self, epoch):
        """The memory of a site that has just started."""
        self.is_up = True
        self.epoch = epoch
        self.next_transaction = 0
        self.next_grant = 0
        self.grants = {}
        self.entries = {}

    def end(self):
        """The site goes down, and loses its memory."""
        self.is_up = False
        self.grants = {}
        self.entries = {}

    # Records.

    def bytes_with(self, record):
        """The length of the journal with one more record."""
        kind = record[0]
        if kind == "epoch":
            return self.length + RECORD_BYTES + EPOCH_BYTES
        if kind == "outcome":
            return self.length + RECORD_BYTES + OUTCOME_BYTES
        leaves = [len(list(polyvalues.cases(tree))) for tree in record[2].values()]
        # Beside its leaves a tree has one test fewer.
        content = sum(VALUE_BYTES + LEAF_BYTES * count + TEST_BYTES * (count - 1) for count in leaves)
        return self.length + RECORD_BYTES + PROMISE_BYTES + content

    def is_full(self, record):
        """The journal has no room for the record."""
        return self.bytes_with(record) > self.limit

    def keep(self, record):
        """The record is on the journal."""
        self.length = self.bytes_with(record)
        if record[0] == "epoch":
            self.greatest_epoch = max(self.greatest_epoch, record[1])
        elif record[0] == "outcome":
            self.outcomes.setdefault(record[1], record[2])
            self.refresh(self.items)
        else:
            self.promises[record[1]] = record[2]
            for name, tree in record[2].items():
                self.writes[name].append((record[1], tree))
            self.refresh(record[2])

    def refresh(self, names):
        """Computes what is shown of these items."""
        for name in names:
            if self.writes[name]:
                self.values[name] = self.shown(name, self.writes[name])

    def shown(self, name, writes):
        """What records with these writes show of an item: the newest promise that commits, by the outcomes that are open."""
        value = self.items[name].value
        for transaction, tree in writes:
            outcome = self.outcomes.get(transaction)
            if outcome is None:
                value = polyvalues.choose(transaction, polyvalues.settle(tree, self.outcomes), value)
            elif outcome:
                value = polyvalues.settle(tree, self.outcomes)
        return value

    def names_shown(self):
        """The transactions that shown values name, ascending."""
        return sorted(set().union(*(polyvalues.names(value) for value in self.values.values())))

    def holder(self, name):
        """The least transaction that holds the item exclusively, or None."""
        return min((grant.transaction for grant in self.grants.values() if grant.wants.get(name)), default=None)

    def item_text(self, name):
        """How an item stands in a report, behind its name."""
        if not self.is_up:
            return "down"
        holder = self.holder(name)
        return f"locked {holder}" if holder else polyvalues.text_of_cases(self.values[name])

    def unsettled(self):
        """The items that are held or in doubt, as a report says it; none where the site is down."""
        return {name: text for name in self.items if is_unsettled(text := self.item_text(name))}

    # Steps of a coordinator.

    def message(self, kind, receiver, transaction, *content):
        """A message from here."""
        return Message(kind, self.number, receiver, transaction, content)

    def submit(self, program, wants):
        """The site is given a request."""
        transaction = Transaction(self.number, self.epoch, self.next_transaction)
        self.next_transaction += 1
        self.entries[transaction] = Entry(transaction, program, wants)
        sends = [self.message("lock", site, transaction, part) for site, part in wants.items()]
        return Deed(sends, [f"txn {transaction}"])

    def outcome_sends(self, entry, commits, sites):
        """The outcome for each of these sites."""
        return [self.message("outcome", site, entry.transaction, commits) for site in sites]

    def refuse(self, entry, cause):
        """The transaction is refused."""
        del self.entries[entry.transaction]
        return Deed(self.outcome_sends(entry, False, entry.wants), [f"refuse {entry.transaction} {cause}"])

    def on_granted(self, message):
        """A participant has granted the locks."""
        entry = self.entries.get(message.transaction)
        if entry is None or entry.is_voting or message.sender not in entry.awaited():
            return Deed()
        entry.grants[message.sender], reads = message.content
        entry.reads.update(reads)
        if entry.awaited():
            return Deed()
        named = set().union(*(polyvalues.names(tree) for tree in entry.reads.values()))
        if len(named) > READ_NAMES:
            return self.refuse(entry, f"outcome-limit {len(named)}")
        for name in self.declared:
            if name in entry.program.certain and (left := polyvalues.names(polyvalues.settle(entry.reads[name], self.outcomes))):
                return self.refuse(entry, f"uncertain {name} {len(left)}")
        return self.lock_point(entry)

    def lock_point(self, entry):
        """The program is computed for each alternative, and votes are asked for."""
        entry.is_voting, entry.age = True, 0
        after = self.computed(entry)
        sends = []
        for site, part in entry.wants.items():
            writes = {name: after[name] for name, exclusive in part.items() if exclusive}
            sends.append(self.message("prepare", site, entry.transaction, entry.grants[site], writes))
        return Deed(sends, placed=entry.transaction)

    def computed(self, entry):
        """Each item after the program, and the reply under the name ``return``, as polyvalues."""
        order = sorted(entry.reads)

        def effect(values):
            rows, reply = run_program(entry.program, dict(zip(order, values)))
            return (*(rows[name] for name in order), reply)

        trees = polyvalues.combine([polyvalues.settle(entry.reads[name], self.outcomes) for name in order], effect)
        return dict(zip([*order, "return"], trees))

    def on_denied(self, message):
        """A participant can't grant the locks."""
        entry = self.entries.get(message.transaction)
        if entry is None or entry.is_voting or message.sender not in entry.awaited():
            return Deed()
        item, holder = message.content
        return self.refuse(entry, f"conflict {message.sender} {item} {holder}")

    def on_yes(self, message):
        """A participant votes yes."""
        entry = self.entries.get(message.transaction)
        if entry is None or not entry.is_voting or message.sender not in entry.awaited():
            return Deed()
        record = ("outcome", entry.transaction, True)
        if entry.awaited() != [message.sender]:
            entry.votes.add(message.sender)
            return Deed()
        if self.is_full(record):
            return self.refuse(entry, f"journal-full {self.number} {self.bytes_with(record)}")
        return self.commit(entry, record)

    def commit(self, entry, record):
        """The transaction commits."""
        self.entries.pop(entry.transaction)
        self.grants.pop(entry.transaction, None)
        known = self.outcomes
        self.outcomes = {**known, entry.transaction: True}
        replies = polyvalues.possible(self.computed(entry)["return"])
        self.outcomes = known
        certainty = "certain" if len(replies) == 1 else "possible"
        line = " ".join([f"commit {entry.transaction} {certainty}", *map(str, replies)])
        others = [site for site in entry.wants if site != self.number]
        return Deed(self.outcome_sends(entry, True, others), [line], record)

    def on_no(self, message):
        """A participant votes no."""
        entry = self.entries.get(message.transaction)
        if entry is None or not entry.is_voting or message.sender not in entry.awaited():
            return Deed()
        cause, *length = message.content
        return self.refuse(entry, " ".join(map(str, [cause, message.sender, *length])))

    def on_ask(self, message):
        """A participant asks for an outcome."""
        transaction = message.transaction
        is_issued = (transaction.epoch, transaction.number) < (self.epoch, self.next_transaction)
        commits = self.outcomes.get(transaction, False)
        if not is_issued or not commits and transaction in self.entries:
            return Deed()
        return Deed([self.message("outcome", message.sender, transaction, commits)])

    # Steps of a participant.

    def on_lock(self, message):
        """A transaction asks for locks."""
        transaction, (wants,) = message.transaction, message.content
        if transaction in self.promises or transaction in self.outcomes:
            return Deed()
        grant = self.grants.get(transaction)
        if grant is None:
            conflict = self.conflict(wants)
            if conflict:
                return Deed([self.message("denied", transaction.site, transaction, *conflict)])
            grant = Grant(transaction, (self.epoch, self.next_grant), wants)
            self.next_grant += 1
            self.grants[transaction] = grant
        values = {name: self.values[name] for name in wants}
        return Deed([self.message("granted", transaction.site, transaction, grant.number, values)])

    def conflict(self, wants):
        """The first item that can't be granted with its least holder, or None."""
        for name, exclusive in wants.items():
            for grant in sorted(self.grants.values(), key=lambda grant: grant.transaction):
                if name in grant.wants and (exclusive or grant.wants[name]):
                    return name, grant.transaction
        return None

    def on_prepare(self, message):
        """A coordinator asks for a vote."""
        transaction, (number, writes) = message.transaction, message.content
        if transaction in self.promises:
            return Deed([self.message("yes", transaction.site, transaction)])
        grant = self.grants.get(transaction)
        if grant is None or grant.number != number:
            return Deed([self.message("no", transaction.site, transaction, "grant-lost")])
        record = ("promise", transaction, writes)
        if any(self.would_be_wide(name, transaction, tree) for name, tree in writes.items()):
            return Deed()
        if self.is_full(record):
            return Deed([self.message("no", transaction.site, transaction, "journal-full", self.bytes_with(record))])
        grant.age = 0
        return Deed([self.message("yes", transaction.site, transaction)], record=record)

    def would_be_wide(self, name, transaction, tree):
        """With the write the item would name too many outcomes."""
        return len(polyvalues.names(self.shown(name, [*self.writes[name], (transaction, tree)]))) > HELD_NAMES

    def on_outcome(self, message):
        """The outcome of a transaction is reported."""
        transaction, (commits,) = message.transaction, message.content
        if transaction in self.outcomes:
            return Deed()
        record = ("outcome", transaction, commits)
        if transaction in self.promises or transaction in self.names_shown():
            if self.is_full(record):
                return Deed(lines=[f"full {self.number} {self.bytes_with(record)}"])
            self.grants.pop(transaction, None)
            return Deed(record=record)
        if not commits:
            self.grants.pop(transaction, None)
        return Deed()

    def take(self, message):
        """A message comes."""
        return getattr(self, f"on_{message.kind}")(message)

    def tick(self):
        """Time goes on by a tick."""
        deed = Deed()
        for kept in (self.grants, self.entries):
            for value in kept.values():
                value.age += 1
        self.grants = {key: grant for key, grant in self.grants.items() if grant.age < TICKS}
        for transaction in sorted(key for key, entry in self.entries.items() if entry.age >= TICKS):
            entry = self.entries[transaction]
            refusal = self.refuse(entry, f"expired {entry.awaited()[0]}")
            deed.sends += refusal.sends
            deed.lines += refusal.lines
        for transaction in self.names_shown():
            if transaction not in self.grants:
                deed.sends.append(self.message("ask", transaction.site, transaction))
        return deed

    def start(self):
        """The site comes up."""
        record = ("epoch", self.greatest_epoch + 1)
        if self.is_full(record):
            return Deed(lines=[f"full {self.number} {self.bytes_with(record)}"], syncs=1)
        return Deed(lines=[f"started {self.number} {record[1]}"], record=record, syncs=1, begins=record[1])


@dataclass
class Delivery:
    """A message that came to its end in an event: it was taken, came to a site that was down, or was lost; and what followed.

    `unsettled` has the items of its receiver that are held or in doubt then, where it was taken.
    """

    message: Message
    fate: str
    is_again: bool
    sends: list = field(default_factory=list)
    lines: list = field(default_factory=list)
    unsettled: Optional[dict] = None


@dataclass
class Happening:
    """What an event comes to: its lines, what its own site sent, its deliveries in order, and what is unsettled at its own site then."""

    lines: list = field(default_factory=list)
    sends: list = field(default_factory=list)
    deliveries: list = field(default_factory=list)
    unsettled: Optional[dict] = None


def pack_leaves_open(other_open, call, mode):
    """Whether the other root's gate is 1 after a fault in this call of a checkpoint: before the gate is closed it is as it was, and once the new root is open it is that of
    the root which was in force."""
    closing = 3 if other_open else None
    opening = 7 if other_open else 5
    if call < 3:
        return other_open
    if closing is not None and call < 5:
        return mode == "lost"
    return call >= opening and mode == "kept"


class World:
    """All sites, every message that was sent, those that are fresh, and the order of lock points."""

    def __init__(self, schedule):
        limit = schedule.journal or LONGEST_JOURNAL
        self.items = schedule.items
        self.sites = [Site(number, schedule.items, limit) for number in range(schedule.sites)]
        self.sent = []
        self.fresh = {}
        self.order = []

    def happen(self, event):
        """Does an event."""
        happening = getattr(self, f"do_{event.kind}")(event)
        if event.site is not None and event.kind != "drop":
            happening.unsettled = self.sites[event.site].unsettled()
        return happening

    def perform(self, site, deed):
        """A site's deed, or what an armed fault leaves of it: the lines and the messages sent."""
        calls = deed.syncs + (4 if deed.record else 0)
        if site.arm and site.arm[0] <= calls:
            return self.break_off(site, deed), []
        if site.arm:
            site.arm = (site.arm[0] - calls, *site.arm[1:])
        if deed.record:
            site.keep(deed.record)
        if deed.begins:
            site.begin(deed.begins)
        if deed.placed:
            self.order.append(deed.placed)
        for message in deed.sends:
            message.number = len(self.sent)
            self.sent.append(message)
            self.fresh[message.number] = True
        return deed.lines, deed.sends

    def pack(self, site):
        """The calls of a checkpoint, or what an armed fault leaves of them: the lines."""
        calls = 8 if site.other_open else 6
        if not site.arm or site.arm[0] > calls:
            if site.arm:
                site.arm = (site.arm[0] - calls, *site.arm[1:])
            site.other_open = True
            return []
        call, mode, line = site.arm
        site.other_open = pack_leaves_open(site.other_open, call, mode)
        site.arm = None
        site.end()
        return [f"{line} {site.number}"]

    def break_off(self, site, deed):
        """The site's armed fault fires."""
        call, mode, line = site.arm
        if deed.record and call > deed.syncs + 2 and mode == "kept":
            site.keep(deed.record)
        site.arm = None
        site.end()
        return [f"{line} {site.number}"]

    def wants(self, program):
        """The items of a program by site, each with whether it is exclusive, sites and items ascending."""
        wants = {}
        for name, item in self.items.items():
            if name in program.items:
                wants.setdefault(item.site, {})[name] = name in program.assigned
        return dict(sorted(wants.items()))

    def do_submit(self, event):
        """A request."""
        site = self.sites[event.site]
        if not site.is_up:
            return Happening([f"down {event.site}"])
        return Happening(*self.perform(site, site.submit(event.program, self.wants(event.program))))

    do_query = do_submit

    def deliver(self, message):
        """A message is delivered."""
        is_again = not self.fresh.pop(message.number, False)
        site = self.sites[message.receiver]
        if not site.is_up:
            return Delivery(message, "down", is_again, lines=[f"down {site.number}"])
        lines, sends = self.perform(site, site.take(message))
        return Delivery(message, "taken", is_again, sends, lines, site.unsettled())

    def do_deliver(self, event):
        """A message by its number."""
        if event.number >= len(self.sent):
            return Happening([f"no message {event.number}"])
        delivery = self.deliver(self.sent[event.number])
        return Happening(list(delivery.lines), [], [delivery])

    def do_pump(self, event):
        """The least fresh messages."""
        happening = Happening()
        while self.fresh and (event.number is None or len(happening.deliveries) < event.number):
            delivery = self.deliver(self.sent[next(iter(self.fresh))])
            happening.deliveries.append(delivery)
            happening.lines += delivery.lines
        return happening

    def lose(self, message):
        """A message is lost."""
        is_again = not self.fresh.pop(message.number, False)
        return Delivery(message, "lost", is_again)

    def do_lose(self, event):
        """A message by its number is lost."""
        if event.number >= len(self.sent):
            return Happening([f"no message {event.number}"])
        return Happening(deliveries=[self.lose(self.sent[event.number])])

    def do_drop(self, event):
        """The fresh messages to a site are lost."""
        dropped = [self.sent[number] for number in self.fresh if self.sent[number].receiver == event.site]
        return Happening(deliveries=[self.lose(message) for message in dropped])

    def do_tick(self, event):
        """A tick."""
        site = self.sites[event.site]
        return Happening(*self.perform(site, site.tick())) if site.is_up else Happening([f"down {event.site}"])

    def do_stop(self, event):
        """A stop."""
        site = self.sites[event.site]
        if not site.is_up:
            return Happening([f"down {event.site}"])
        site.end()
        return Happening([f"stopped {event.site}"])

    def do_start(self, event):
        """A start."""
        site = self.sites[event.site]
        return Happening([f"up {event.site}"]) if site.is_up else Happening(*self.perform(site, site.start()))

    def do_cut(self, event):
        """An armed stop or failure."""
        line = "stopped" if event.kind == "cut" else "fault"
        self.sites[event.site].arm = (event.number, event.mode, line)
        return Happening()

    do_fail = do_cut

    def do_mend(self, event):
        """A disk is disarmed."""
        self.sites[event.site].arm = None
        return Happening()

    def do_checkpoint(self, event):
        """A log is written anew, packed, which changes no record."""
        site = self.sites[event.site]
        if not site.is_up:
            return Happening([f"down {event.site}"])
        return Happening(self.pack(site))

    def do_sent(self, event):
        """The messages."""
        return Happening([f"sent {m.number} {m.sender}>{m.receiver} {m.kind} {m.transaction}" for m in self.sent])

    def is_committed(self, transaction):
        """Its own site's records say that it commits."""
        return self.sites[transaction.site].outcomes.get(transaction, False)

    def is_open(self, transaction):
        """It may still commit."""
        entry = self.sites[transaction.site].entries.get(transaction)
        return not self.is_committed(transaction) and entry is not None and all(
            transaction in self.sites[site].promises or self.has_grant(site, transaction, number) for site, number in entry.grants.items()
        )

    def has_grant(self, site, transaction, number):
        """The very grant stands."""
        grant = self.sites[site].grants.get(transaction)
        return grant is not None and grant.number == number

    def do_report(self, event):
        """A report."""
        lists = {
            "order": self.order,
            "committed": filter(self.is_committed, self.order),
            "open": filter(self.is_open, self.order),
        }
        lines = [" ".join([word, *map(str, transactions)]) for word, transactions in lists.items()]
        lines += [f"item {item.name} {self.sites[item.site].item_text(item.name)}" for item in self.items.values()]
        return Happening([*lines, "end"])

    def do_total(self, event):
        """The sum of all items."""
        values = []
        for item in self.items.values():
            site = self.sites[item.site]
            if not site.is_up:
                return Happening([f"total down {site.number}"])
            if site.holder(item.name):
                return Happening([f"total locked {item.name}"])
            values.append(site.values[item.name])
        named = set().union(*map(polyvalues.names, values))
        if len(named) > HELD_NAMES:
            return Happening([f"total outcome-limit {len(named)}"])
        sums = polyvalues.possible(polyvalues.combine(values, lambda row: (sum(row),))[0]) if values else [0]
        return Happening([" ".join(["total", "certain" if len(sums) == 1 else "possible", *map(str, sums)])])
