"""What follows from the lines of a run and is printed nowhere: which messages are fresh, which sites are up, which faults are armed, and which transaction has which
program and replies. `docs/SEMANTICS.md` says how.
"""

import re
from bisect import bisect_left, insort

_SENT = re.compile(r"sent ([0-9]+) ([0-9]+)>([0-9]+) ([a-z]+) (\S+)\Z")
_SITE_LINE = re.compile(r"(stopped|fault|started) ([0-9]+)(?: [0-9]+)?\Z")


def message_of(text):
    """The message of a printed line `sent`."""
    number, sender, to, kind, transaction = _SENT.match(text).groups()
    return {"number": int(number), "from": int(sender), "to": int(to), "kind": kind, "transaction": transaction}


class Tally:
    """The tally of the events so far."""

    def __init__(self, sites):
        self.messages = []
        self.fresh = []
        self.programs = {}
        self.replies = {}
        self.up = [True] * sites
        self.armed = [None] * sites

    def note(self, line, printed, sent):
        """Takes an event in: its line, what it printed, and the messages that it sent. What the page is told of it."""
        words = line.split()
        told = {"act": words[0], **self._fates(words), "printed": printed, "sent": [message["number"] for message in sent]}
        if words[0] in ("submit", "query"):
            self._note_program(line, words, printed)
        if words[0] in ("cut", "fail", "mend"):
            self.armed[int(words[1])] = None if words[0] == "mend" else " ".join([words[0], *words[2:]])
        self._note_replies(printed)
        self._note_sites(words[0], printed)
        self.messages += sent
        for number in told["sent"]:
            insort(self.fresh, number)
        return told

    # What an event is about: a message, which is done with it, or a site; and which messages it loses. `again` is a message that wasn't fresh any more.
    def _fates(self, words):
        if words[0] in ("deliver", "lose"):
            return self._fate(words[0], int(words[1]))
        if words[0] == "drop":
            site = int(words[1])
            return {"site": site, "lost": self._settle([it for it in self.fresh if self.messages[it]["to"] == site])}
        return {"site": int(words[1])} if len(words) > 1 and words[0] != "pump" else {}

    def _fate(self, act, number):
        if number >= len(self.messages):
            return {}
        settled = self._settle([number])
        return {"message": number, **({} if settled else {"again": True}), **({"lost": settled} if act == "lose" else {})}

    def _settle(self, numbers):
        settled = []
        for number in numbers:
            place = bisect_left(self.fresh, number)
            if place < len(self.fresh) and self.fresh[place] == number:
                del self.fresh[place]
                settled.append(number)
        return settled

    def _note_program(self, line, words, printed):
        for answer in printed:
            if answer.startswith("txn "):
                program = line.split(None, 2)[2].rstrip()
                self.programs[answer[4:]] = {"site": int(words[1]), "kind": words[0], "program": program}

    def _note_replies(self, printed):
        for answer in printed:
            if answer.startswith("commit "):
                _, transaction, _, *replies = answer.split()
                self.replies[transaction] = replies

    # A stop that no `stop` asked for is an armed fault that has fired, and it fires once.
    def _note_sites(self, act, printed):
        for answer in printed:
            found = _SITE_LINE.match(answer)
            if found:
                site = int(found[2])
                self.up[site] = found[1] == "started"
                if found[1] != "started" and act != "stop":
                    self.armed[site] = None
