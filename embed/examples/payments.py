"""Payments that go out once: an order is held back while a transfer is in doubt, and its payer is killed at the worst moments.

A payer is a process of its own. It keeps its outbox in a file, and gives the orders that the outbox lets out to a bank. What happens:

 1. Twenty go from `till` at site 0 to `account` at site 1, and the word that this has committed is lost. Site 1 shows both values of the account, each with its condition.
 2. Order 7, of 55, is held back until the account is sure to have so much. Order 8, of 10, which it has in any case, is held too. The payer pays order 8 alone.
 3. Site 1 has asked, and the account has one value. The payer learns of the commit, and is killed (SIGKILL) once its file has the record that order 7 is released, before it has paid it.
 4. The next payer is given nothing by its outbox. Order 7 is due, and the bank doesn't have it: so that is the one that was let out to nobody, and it is paid now.
 5. Order 9 comes. Its payer is killed when it has paid it. The next one is given nothing, asks the bank, and leaves it at that.
"""

import fcntl
import os
import shutil
import signal
import subprocess
import sys
import tempfile
from pathlib import Path

import polydb

CATALOG = """\
sites 2
item till 0 100
item account 1 50
"""


# ---- the receiver ----


class Bank:
    """It can be asked which orders it has paid, and takes no number twice. Here it is a file; elsewhere it is another company."""

    def __init__(self, folder):
        self.file = Path(folder) / "bank"
        self.file.touch()

    def paid(self):
        return [int(line.split()[0]) for line in self.file.read_text().splitlines()]

    def pay(self, number, amount):
        if number in self.paid():
            raise SystemExit(f"order {number} comes a second time")
        with self.file.open("a") as file:
            file.write(f"{number} {amount}\n")


# ---- the payer: one process, one outbox ----


class OutboxFile:
    """An outbox in a file of its own, with what a host owes by `polydb.h`."""

    def __init__(self, folder):
        self.folder = Path(folder)
        self.lock = os.open(self.folder / "outbox.lock", os.O_RDWR | os.O_CREAT, 0o600)
        fcntl.flock(self.lock, fcntl.LOCK_EX)  # one outbox is open on the file at a time
        name = self.folder / "outbox.pv"
        held = name.read_bytes() if name.exists() else polydb.EMPTY_JOURNAL
        self.outbox = polydb.Outbox(held)
        self.file = self.copy(name, held)

    def copy(self, name, held):
        """What was read needn't be on the disk, if a process before was killed or its disk has failed. So it goes on in a copy, which is there, with its entry in the folder, before anything
        else is done."""
        beside = self.folder / "outbox.new"
        file = os.open(beside, os.O_RDWR | os.O_CREAT | os.O_TRUNC, 0o600)
        self.write(file, held, 0)
        os.rename(beside, name)
        folder = os.open(self.folder, os.O_RDONLY | os.O_DIRECTORY)
        os.fsync(folder)
        os.close(folder)
        return file

    def write(self, file, data, place):
        while data:
            count = os.pwrite(file, data, place)
            data, place = data[count:], place + count
        os.fdatasync(file)

    def settle(self):
        """Writes and syncs what waits. Where that fails, this process ends, and the next one goes on in a copy."""
        while (write := self.outbox.next_write()) is not None:
            self.write(self.file, write.bytes, write.place)
            self.outbox.written(write)


def is_due(cases, outcomes):
    """Whether each case that may still be met has the value 1."""
    return all(case.value == 1 or any(outcomes.get(name[1:], name[0]) != name[0] for name in case.when) for case in polydb.item_of("", cases).cases)


class Payer:
    """A payer's life. It comes to a stop once it has released an order, or paid one, where it is to be killed there."""

    def __init__(self, folder, doomed):
        self.doomed = doomed
        self.bank = Bank(folder)
        self.files = OutboxFile(folder)
        self.outbox = self.files.outbox

    def hold(self, number, cases):
        try:
            self.outbox.hold(number, cases)
        except (polydb.Again, polydb.Unwritten):
            pass  # it was held in an earlier life, and that counts

    def learn(self, name, commits):
        self.files.settle()  # so that it is told which outcome counts, if one was learnt in an earlier life
        try:
            self.outbox.learn(name, commits)
        except polydb.Known as known:
            if known.outcome is not (polydb.Outcome.COMMITTED if commits else polydb.Outcome.NOT_COMMITTED):
                raise  # it has heard two: by this one an order may be due that the outbox holds back for ever

    def live(self, orders, outcomes):
        """Pays what is due. The orders are numbers, each with its amount and its condition; the outcomes are those that the payer has heard of, `+` or `-`."""
        for number, (_, cases) in orders.items():
            self.hold(number, cases)
        for name, sign in outcomes.items():
            self.learn(name, sign == "+")
        while self.outbox.release():
            pass
        self.files.settle()
        self.come_to("released")

        given = []
        while (number := self.outbox.take()) is not None:
            given.append(number)
        for number in given:
            self.pay(number, orders[number][0])
        self.come_to("paid")

        # What the outbox has let out to a payer that was killed it doesn't let out again. Whether it was paid, the bank alone knows.
        for number, (amount, cases) in orders.items():
            if is_due(cases, outcomes) and number not in self.bank.paid():
                self.say(f"order {number} was let out, and not paid")
                self.pay(number, amount)

    def pay(self, number, amount):
        self.bank.pay(number, amount)
        self.say(f"pays {amount}, order {number}")

    def come_to(self, place):
        if place == self.doomed:
            self.say(place)
            signal.pause()  # until it is killed

    def say(self, line):
        print(line, flush=True)


# ---- the driver: makes the doubt, starts payers, and kills them ----


def condition(shown, amount):
    """When the item that shows this has so much: 1 in each case that is enough, and else 0. (Of an item in doubt about several transactions, cases that agree may have to be made one.)"""
    cases = polydb.item_of("", shown).cases
    enough = [int(case.value >= amount) for case in cases]
    if len(set(enough)) == 1:
        return str(enough[0])
    return " ; ".join(f"{value} if {' '.join(case.when)}" for value, case in zip(enough, cases))


def reported(world, words):
    """What the world's report has behind these words."""
    world.take()
    world.step("report")
    return next(line.removeprefix(words).strip() for line in world.take().decode().splitlines() if line.startswith(words))


def life(folder, orders, outcomes, doomed="never"):
    """A payer's process. One that is doomed is killed where it comes to a stop."""
    words = [f"{number} {amount} {cases}" for number, (amount, cases) in orders.items()], [f"{name} {sign}" for name, sign in outcomes.items()]
    child = subprocess.Popen([sys.executable, __file__, folder, doomed, *map("\n".join, words)], stdout=subprocess.PIPE, text=True)
    for line in child.stdout:
        if line.rstrip() == doomed:
            child.send_signal(signal.SIGKILL)
            print(f"  the payer has {doomed}, and is killed")
        else:
            print("  the payer:", line, end="")
    if child.wait() != (0 if doomed == "never" else -signal.SIGKILL):
        raise SystemExit(f"a payer ended with status {child.returncode}")


def drive(folder):
    world = polydb.World(CATALOG)
    for line in ["submit 0 till := till - 20 ; account := account + 20", "pump 8", "lose 8", "tick 1", "tick 1", "tick 1"]:
        world.step(line)
    shown = reported(world, "item account")
    print("the account in doubt:", shown)
    orders = {7: (55, condition(shown, 55)), 8: (10, condition(shown, 10))}
    for number, (amount, cases) in orders.items():
        print(f"order {number} of {amount} is held back by: {cases}")
    life(folder, orders, {})

    for line in ["tick 1", "pump"]:
        world.step(line)
    print("the account:", reported(world, "item account"))
    outcomes = {name: "+" for name in reported(world, "committed").split()}
    life(folder, orders, outcomes, "released")
    life(folder, orders, outcomes)

    orders[9] = (5, condition(reported(world, "item account"), 5))
    print("order 9 of 5 comes")
    life(folder, orders, outcomes, "paid")
    life(folder, orders, outcomes)
    print("the bank has paid the orders", *Bank(folder).paid())


def main():
    if len(sys.argv) > 1:
        folder, doomed, orders, outcomes = sys.argv[1:]
        held = {int(number): (int(amount), cases) for number, amount, cases in (line.split(" ", 2) for line in orders.splitlines())}
        Payer(folder, doomed).live(held, dict(line.split() for line in outcomes.splitlines()))
        return
    folder = tempfile.mkdtemp(prefix="polydb-")
    try:
        drive(folder)
    finally:
        shutil.rmtree(folder)


if __name__ == "__main__":
    main()
