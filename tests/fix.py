#!/usr/bin/env python3
"""tests/fix.py GATEWAY CLIENT FOLDER [SEED [ORDERS]] tests the FIX gateway of examples/fix with a client of its own, both
over QuickFIX on the loopback. GATEWAY is built with the simulated disk of disk.c. While the client enters, cancels and
replaces orders, the gateway is killed at random times and started again. Some of the kills are power cuts: what was not
synced of the set and of the log is gone, and sometimes the session's own files too, which QuickFIX does not sync. In the
end the client, the set and the exchange's list must say the same of every order, and the exchange got none twice."""
import os
import random
import shutil
import signal
import socket
import subprocess
import sys
import time

EXAMPLE = os.path.join(os.path.dirname(os.path.abspath(__file__)), "../examples/fix")
FILES = ["orders.img", "messages.log"]


def fail(words):
    sys.exit(f"fix: NOT SO: {words}")


def free_port():
    with socket.socket() as s:
        s.bind(("127.0.0.1", 0))
        return s.getsockname()[1]


def configurations(folder):
    """That of the gateway is the example's, with a free port and paths from here; the client's is the other side of it."""
    text = open(f"{EXAMPLE}/gateway.cfg").read().replace("5001", str(free_port())).replace("fix44.xml", f"{EXAMPLE}/fix44.xml")
    other = text.replace("acceptor", "initiator").replace("SocketAcceptPort", "SocketConnectHost=127.0.0.1\nSocketConnectPort")
    other = other.replace("SenderCompID=GATEWAY\nTargetCompID=CLIENT", "SenderCompID=CLIENT\nTargetCompID=GATEWAY")
    for name, words in ("session", text), ("client", other.replace("[SESSION]", "ReconnectInterval=1\nHeartBtInt=5\n[SESSION]")):
        os.mkdir(f"{folder}/{name}")
        open(f"{folder}/{name}.cfg", "w").write(words.replace("=session", f"={folder}/{name}"))


class Gateway:
    def __init__(self, program, folder, seed):
        self.program, self.folder, self.seed, self.starts = program, folder, seed, 0
        self.shadows = f"{folder}/durable"
        os.mkdir(self.shadows)
        self.list()  # makes the files
        for name in FILES:
            shutil.copy(f"{folder}/{name}", self.shadows)

    def list(self):
        done = subprocess.run([self.program, self.folder], text=True, capture_output=True)
        if done.returncode:
            fail(f"the set can be listed: {done.stderr}")
        return {words[0]: (int(words[1]), int(words[2])) for words in map(str.split, done.stdout.splitlines())}

    def start(self):
        self.starts += 1
        words = [self.program, self.folder, f"{self.folder}/session.cfg", str(self.seed * 1000 + self.starts)]
        self.process = subprocess.Popen(words, env={**os.environ, "DISK_SHADOWS": self.shadows})

    def end(self, number):
        if self.process.poll() is not None:
            fail(f"the gateway runs until it is ended: status {self.process.returncode}")
        self.process.send_signal(number)
        self.process.wait()

    def cut(self):
        for name in FILES:
            shutil.copy(f"{self.shadows}/{name}", f"{self.folder}/{name}")


def exchange_list(path):
    """What the exchange has: each order with ordered, filled and status."""
    orders = {}
    for what, order, *rest in map(str.split, open(path)):
        if what == "new":
            orders[order] = [int(rest[0]), 0, "o"]
        elif what == "fill":
            orders[order][1] += int(rest[0])
            if orders[order][0] == orders[order][1]:
                orders[order][2] = "f"
        elif what == "cancel":
            orders[order][2] = "c"
        elif what == "replace":
            orders[rest[0]] = [int(rest[1]), orders[order][1], "o"]
            orders[order][2] = "r"
        else:
            fail(f"no order is sent twice: {order}")
    return orders


def compare(client, held, exchange):
    """Client, set and exchange, order by order."""
    for order, (ordered, filled, status) in exchange.items():
        if status == "o" and held.get(order) != (ordered, filled):
            fail(f"the set has the open order {order} of {ordered}, filled {filled}: {held.get(order)}")
        if status != "o" and order in held:
            fail(f"order {order} is at its end ({status}) and not in the set")
        if order not in client:
            fail(f"the client knows order {order}")
        if client[order][2] != status or status != "r" and client[order][:2] != (ordered, filled):
            fail(f"the client was told of {order} what the exchange has, {ordered} {filled} {status}: {client[order]}")
    for order in held:
        if order not in exchange:
            fail(f"order {order} of the set is at the exchange")
    for order, (_, _, status) in client.items():
        if order not in exchange and status != "x":
            fail(f"order {order}, of which the client was told {status}, is at the exchange")


def main():
    program, client_program, folder = sys.argv[1:4]
    seed = int(sys.argv[4]) if len(sys.argv) > 4 else int(time.time())
    number = int(sys.argv[5]) if len(sys.argv) > 5 else 2000
    chance = random.Random(seed)
    shutil.rmtree(folder, ignore_errors=True)
    os.makedirs(folder)
    configurations(folder)
    gateway = Gateway(program, folder, seed)
    gateway.start()
    with open(f"{folder}/told", "w+") as told, open(f"{folder}/client.err", "w+") as errors:
        words = [client_program, f"{folder}/client.cfg", str(seed), str(number)]
        client = subprocess.Popen(words, stdout=told, stderr=errors)
        kills = cuts = lost = 0
        try:
            while "entered" not in open(errors.name).read() and client.poll() is None and kills < 100:
                time.sleep(chance.uniform(0.6, 1.8))
                gateway.end(signal.SIGKILL)
                kills += 1
                is_cut = chance.random() < 0.5
                if is_cut or kills == 1:  # one at least, however short the run
                    gateway.cut()
                    cuts += 1
                    if is_cut and chance.random() < 0.5:
                        shutil.rmtree(f"{folder}/session")
                        os.mkdir(f"{folder}/session")
                        lost += 1
                gateway.start()
            if client.wait(timeout=60):
                fail(f"the client ends well: {open(errors.name).read()}")
        except subprocess.TimeoutExpired:
            fail("the client ends")
        finally:
            client.kill()
            gateway.end(signal.SIGTERM)
    said = {words[0]: (int(words[1]), int(words[2]), words[3]) for words in map(str.split, open(told.name))}
    exchange = exchange_list(f"{folder}/exchange.list")
    compare(said, gateway.list(), exchange)
    states = [status for _, _, status in exchange.values()]
    print(f"fix: seed {seed}: {len(said)} orders entered, {len(exchange)} at the exchange: {states.count('o')} open, "
          f"{states.count('f')} filled, {states.count('c')} canceled, {states.count('r')} replaced; {kills} kills, {cuts} of "
          f"them power cuts, {lost} with the session's files lost; client, set and exchange agree")


if __name__ == "__main__":
    main()
