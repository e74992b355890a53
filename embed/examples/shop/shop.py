#!/usr/bin/env python3
"""The shop of the example: a service that sells pieces from two warehouses, each of which is a process of its own and may be away, and pays for each order once.

    shop.py serve FOLDER             the shop, on a folder with `peers`, `shop.polydb` and `data`, as `start` makes it
    shop.py FOLDER order NUMBER PIECES
    shop.py FOLDER status NUMBER
    shop.py FOLDER cash

What the shop keeps is in the database alone, so it may be killed at any time. A customer who has heard nothing asks again with the same number, and nothing is done twice.
"""

import asyncio
import os
import socket
import sys
from pathlib import Path

sys.path.insert(0, str(Path(__file__).resolve().parent.parent.parent))

ORDERS = range(1, 33)
WAREHOUSES = ("north", "south")
PRICE = 30
TRIES = 20  # requests for one order, until the customer is told to come again
PAUSE = 0.1  # seconds between two of them, and between two looks at what is to be paid


# ---- the shop ----


def program(number, pieces, warehouse):
    """One order: once for its number, from a warehouse that has enough. It names that one alone, so the other may be away."""
    return (
        f"require order_{number} = 0 ; "
        f"require {warehouse} >= {pieces} ; {warehouse} := {warehouse} - {pieces} ; "
        f"order_{number} := {pieces} ; cash := cash + {pieces * PRICE}"
    )


class Bank:
    """Stands for a bank: takes a payment with a key, and each key once, whoever asks again."""

    def __init__(self, path):
        self.path = path

    def paid(self):
        return {line.split()[0] for line in self.path.read_text().splitlines()} if self.path.exists() else set()

    def pay(self, key, amount):
        if key not in self.paid():
            with open(self.path, "a") as file:
                file.write(f"{key} {amount}\n")
                file.flush()
                os.fsync(file.fileno())


class Shop:
    def __init__(self, node, bank):
        self.node = node
        self.bank = bank

    async def order(self, number, pieces):
        """Sells, if that hasn't been done: whatever was asked before, and whether the answer to it was lost."""
        for _ in range(TRIES):
            without = 0  # warehouses that have too little
            for warehouse in WAREHOUSES:
                said = await self.status(number)
                if said != "not sold":
                    return said
                answer = await self.node.submit(program(number, pieces, warehouse))
                if answer and answer.is_certain and answer.reply == "declined-require":
                    without += 1  # else it is sold, which the order's item says, or refused for now: somebody else had an item, or the warehouse didn't answer in time
            said = await self.status(number)
            if said != "not sold":
                return said
            if without == len(WAREHOUSES):
                return "sold out"
            await asyncio.sleep(PAUSE)
        return "not sold yet, ask again"

    async def status(self, number):
        """What is known of an order. This is the one place that tells whether a request of an earlier time went through: by the order's own item."""
        item = await self.node.read(f"order_{number}")
        if item.locked is not None:
            return "being sold, ask again"
        if not item.is_certain:
            return f"sold or not, which depends on {item.cases[0].when[0][1:]}; ask again"
        return f"sold, {item.value} pieces" if item.value > 0 else "not sold"

    async def pay_for_all(self):
        """Pays for each order of which it is sure that it is sold. The bank takes a key once, so this may be killed between any two of its steps."""
        while True:
            paid = self.bank.paid()
            for number in ORDERS:
                key = f"order_{number}"
                if key not in paid:
                    item = await self.node.read(key)
                    if item.is_certain and item.value > 0:
                        self.bank.pay(key, item.value * PRICE)
            await asyncio.sleep(PAUSE)

    async def answer(self, words):
        try:
            if words[0] == "order" and int(words[1]) in ORDERS and int(words[2]) > 0:
                return await self.order(int(words[1]), int(words[2]))
            if words[0] == "status" and int(words[1]) in ORDERS:
                return await self.status(int(words[1]))
            if words == ["cash"]:
                item = await self.node.read("cash")
                return " or ".join(map(str, item.values)) or "being changed"
        except (IndexError, ValueError):
            pass
        return "an order has a number from 1 to 32 and some pieces"

    async def hear(self, reader, writer):
        """A customer: a line, and an answer."""
        try:
            words = (await reader.readline()).decode(errors="replace").split()
            writer.write((await self.answer(words)).encode() + b"\n")
            await writer.drain()
        except (ConnectionError, ValueError):
            pass  # gone again
        writer.close()


async def serve(folder):
    from polydb.node import Node

    config = (folder / "shop.polydb").read_bytes()
    async with await Node.open(folder / "data", config, 0, folder / "peers", is_there=True, notice=lambda words: print(f"shop: {words}", flush=True)) as node:
        print(f"shop: {'new' if node.found.records == 0 else f'{node.found.records} records'}", flush=True)
        shop = Shop(node, Bank(folder / "payments"))
        path = folder / "shop.sock"
        path.unlink(missing_ok=True)
        server = await asyncio.start_unix_server(shop.hear, path)
        print("shop: open", flush=True)
        async with server:
            await shop.pay_for_all()


# ---- a customer ----


def ask(folder, line):
    """What the shop answers, or that it doesn't."""
    with socket.socket(socket.AF_UNIX) as shop:
        shop.settimeout(30)
        try:
            shop.connect(str(folder / "shop.sock"))
            shop.sendall(line.encode() + b"\n")
            answer = b""
            while data := shop.recv(4096):
                answer += data
        except OSError:
            return "the shop doesn't answer, ask again"
        return answer.decode().strip() or "the shop doesn't answer, ask again"


def main():
    if sys.argv[1:2] == ["serve"] and len(sys.argv) == 3:
        try:
            asyncio.run(serve(Path(sys.argv[2])))
        except KeyboardInterrupt:
            pass
    elif len(sys.argv) > 2:
        print(ask(Path(sys.argv[1]), " ".join(sys.argv[2:])))
    else:
        print(__doc__, file=sys.stderr)
        raise SystemExit(2)


if __name__ == "__main__":
    main()
