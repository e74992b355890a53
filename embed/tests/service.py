"""The example of a service: two warehouses and a shop, any of which is killed at any time. Orders are retried by their numbers. At the end no piece is
gone or sold twice, and each order is paid once.

    service.py [doubt]

With the word `doubt` it kills the shop until the stock of the north is in doubt, and shows what a customer and a warehouse see. It needs a python3 with
zmq, and the programs that `embed/build` makes.
"""

import random
import re
import shutil
import signal
import subprocess
import sys
import tempfile
import threading
import time
from pathlib import Path

HERE = Path(__file__).resolve().parent
SHOP = HERE.parent / "examples" / "shop"
sys.path[:0] = [str(HERE), str(SHOP)]

import nodes  # noqa: E402
import shop  # noqa: E402

NAMES = {"shop": 0, "north": 1, "south": 2}
PIECES = 80
PATIENCE = 120.0


class Service:
    """The three processes, in a folder that goes at the end."""

    def __init__(self):
        self.place = Path(tempfile.mkdtemp(prefix="polydb-"))
        self.folder = self.place / "service"

    def __enter__(self):
        self.start()
        return self

    def __exit__(self, kind, *_):
        for name in NAMES:
            self.kill(name)
        if kind is not None:
            for name in NAMES:
                print((self.folder / f"{name}.log").read_text(), file=sys.stderr)
        shutil.rmtree(self.place)

    def start(self, *names):
        environment = {**nodes.os.environ, "PYTHON": sys.executable, "POLYDB_PROGRAMS": str(nodes.PROGRAMS)}
        subprocess.run([SHOP / "start", self.folder, *names], check=True, stdout=subprocess.DEVNULL, env=environment)

    def kill(self, name):
        number = int((self.folder / f"{name}.pid").read_text())
        try:
            nodes.os.kill(number, signal.SIGKILL)
            while Path(f"/proc/{number}").exists() and ") Z" not in Path(f"/proc/{number}/stat").read_text():
                time.sleep(0.005)
        except (ProcessLookupError, FileNotFoundError):
            pass

    def ask(self, words):
        return shop.ask(self.folder, words)

    def polydbc(self, name, *words):
        """What polydbc prints of a warehouse, or nothing while that is away."""
        socket = self.folder / "data" / f"site-{NAMES[name]}.sock"
        return subprocess.run([nodes.PROGRAMS / "polydbc", "--socket", socket, "--timeout", "20", *words], capture_output=True, text=True).stdout.splitlines()


def until(holds, what):
    end = time.monotonic() + PATIENCE
    while not (found := holds()):
        assert time.monotonic() < end, what
        time.sleep(0.05)
    return found


MOVE = "require north >= 2 ; north := north - 2 ; south := south + 2"
MOVE_BACK = "require south >= 3 ; south := south - 3 ; north := north + 3"


def orders_and_kills():
    chance = random.Random()
    with Service() as service:
        answers = {}
        is_over = threading.Event()

        def customer(number):
            """Asks until the shop says something that is sure."""
            pieces = 1 + number % 6
            while not (answers.get(number, "").startswith("sold,") or answers.get(number) == "sold out"):
                answers[number] = service.ask(f"order {number} {pieces}")
                if "ask again" in answers[number]:
                    time.sleep(0.05)

        def mover():
            while not is_over.is_set():
                service.polydbc(chance.choice(["north", "south"]), "submit", chance.choice([MOVE, MOVE_BACK]))
                time.sleep(0.02)

        def killer():
            while not is_over.is_set():
                time.sleep(chance.uniform(0.1, 0.6))
                name = chance.choice(list(NAMES))
                service.kill(name)
                time.sleep(chance.uniform(0.0, 0.3))
                service.start(name)

        threads = [threading.Thread(target=customer, args=(number,)) for number in shop.ORDERS]
        others = [threading.Thread(target=mover), threading.Thread(target=killer)]
        for thread in threads + others:
            thread.start()
        for thread in threads:
            thread.join(PATIENCE)
            assert not thread.is_alive(), answers
        is_over.set()
        for thread in others:
            thread.join()
        sold = {number: int(answer.split()[1]) for number, answer in answers.items() if answer.startswith("sold,")}
        left = [int(until(lambda: service.polydbc(name, "read", "--certain", name), name)[0].split()[2]) for name in ("north", "south")]
        assert sum(left) + sum(sold.values()) == PIECES, (left, sold)
        assert all(pieces == 1 + number % 6 for number, pieces in sold.items()), sold
        wanted = sorted(f"order_{number} {pieces * shop.PRICE}" for number, pieces in sold.items())
        until(lambda: sorted((service.folder / "payments").read_text().splitlines()) == wanted, "payments")
        assert until(lambda: service.ask("cash") == str(sum(sold.values()) * shop.PRICE), "cash")
        print(f"{len(sold)} orders sold, {len(answers) - len(sold)} sold out, {left} pieces left, each order paid once")


def doubt():
    """Kills the shop while it sells, until it has decided and the north hasn't heard of it."""
    with Service() as service:
        until(lambda: service.ask("order 1 3").startswith("sold,"), "the first order")
        for number in 10 * [*range(2, 33)]:
            if service.ask(f"status {number}") != "not sold":
                continue
            buyer = threading.Thread(target=service.ask, args=(f"order {number} 1",))
            buyer.start()
            time.sleep(random.uniform(0.0, 0.1))
            service.kill("shop")
            buyer.join()
            line = until(lambda: (said := service.polydbc("north", "read", "north")) and "locked" not in said[0] and said[0], "north")
            if " if " in line:
                print(f"the warehouse's stock while the shop is away: {line}")
                print(f"the customer of order {number}: {service.ask(f'status {number}')}")
                moved = until(lambda: (said := service.polydbc("south", "submit", MOVE)) and said[-1].startswith("commit") and said[-1], "a move")
                print(f"the south takes two pieces from the north all the same: {moved}")
                until(lambda: (said := service.polydbc("north", "read", "north", )) and "locked" not in said[0] and print(f"and the stock is: {said[0]}") is None, "north")
            service.start("shop")
            until(lambda: re.match("sold|not", service.ask(f"status {number}")), "the shop")
            if " if " in line:
                print(f"the shop is back; the stock is: {service.polydbc('north', 'read', '--certain', 'north')[0]}")
                print(f"the customer of order {number}: {service.ask(f'status {number}')}")
                print(f"who asks for it once more: {service.ask(f'order {number} 1')}")
                until(lambda: f"order_{number} " in (service.folder / "payments").read_text(), "a payment")
                print("payments:", ", ".join((service.folder / "payments").read_text().splitlines()))
                return
        print("no kill came at that moment")


def main():
    if sys.argv[1:] == ["doubt"]:
        doubt()
    else:
        orders_and_kills()


if __name__ == "__main__":
    main()
