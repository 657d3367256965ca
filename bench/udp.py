#!/usr/bin/env python3
"""Measures agentd over UDP: replies a second to a Get, a GetBulk and a Set, beside those of a plain echo.

    bench/udp.py [--agentd FILE] [--seconds N] [--forever]

For 1, 2 and 4 workers and for 1 and 4 clients, each with one request under way, it asks a fresh `agentd serve` for N seconds
(2 by default) and for as long an echo of the same requests, which has as many threads on one socket as the agent has workers.
Before each measurement it asks once, and the reply is to be of that request and without an error. A reply that did not come
within a second is lost. The Sets are of 4096 and 8192 in turn, so that each changes something, if no other client's comes
between. The last line gives by how much the agent's resident memory grew over the Gets of 1 worker and 1 client, by
VmRSS in /proc. Exit status 1 where a first reply or the agent failed, or a reply had an error.

An agent makes 1,000,000 rounds a worker and no more: with an N of more requests than that, the rest are lost. With `--forever`
it is served so, by intervals of 10,000 rounds, and first asked 30,000 Gets, so that its history is full and its intervals have been dropped.

The agent is that which `rt run` leaves in crates/agentd/out/agentd. A C compiler is needed, as `cc`, for bench/udp.c.
"""

import argparse
import contextlib
import itertools
import pathlib
import re
import signal
import socket
import subprocess
import sys
import tempfile
import time

BENCH = pathlib.Path(__file__).resolve().parent
AGENTD = BENCH.parent / "crates" / "agentd" / "out" / "agentd"
HOST = "127.0.0.1"
WORKERS = (1, 2, 4)
CLIENTS = (1, 4)
REQUEST_ID = 1
MOST_SECONDS_TO_START = 20
MOST_ROUNDS = 1_000_000
INTERVAL = 10_000  # rounds of an interval, where an agent is served without an end
FIRST_REQUESTS = 30_000  # that such an agent is asked before it is measured
SECONDS_TO_WARM = 0.5

CONFIGURATION = """\
address = "02000000000A"
contexts = []
[[port]]
ifindex = 1
speed = 1000
full = true
listen = "{first}"
peer = "{first_peer}"
[[port]]
ifindex = 2
speed = 1000
full = true
listen = "{second}"
peer = "{second_peer}"
[serve]
snmp = "{snmp}"
workers = {workers}
rounds = {rounds}
[[community]]
index = "a"
name = "admin"
security = "admin"
context = ""
[[community]]
index = "p"
name = "public"
security = "public"
context = ""
[[group]]
model = 2
name = "admin"
group = "writers"
[[group]]
model = 2
name = "public"
group = "readers"
[[access]]
group = "readers"
prefix = ""
model = 2
level = 1
exact = true
read = "bridge"
write = ""
notify = ""
[[access]]
group = "writers"
prefix = ""
model = 2
level = 1
exact = true
read = "bridge"
write = "bridge"
notify = ""
[[family]]
view = "bridge"
subtree = "1.3.6.1.2.1.17"
mask = ""
included = true
"""

SEQUENCE, INTEGER, STRING, NULL, OBJECT = 0x30, 0x02, 0x04, 0x05, 0x06
GET, RESPONSE, SET, GET_BULK = 0xA0, 0xA2, 0xA3, 0xA5


def element(tag, *parts):
    """An element of BER."""
    content = b"".join(parts)
    length = bytes([len(content)]) if len(content) < 128 else bytes([0x82, *len(content).to_bytes(2, "big")])
    return bytes([tag]) + length + content


def integer(value):
    """An INTEGER of BER, of a number that is not negative."""
    return element(INTEGER, value.to_bytes(value.bit_length() // 8 + 1, "big"))


def name(text):
    """An OBJECT IDENTIFIER of BER."""
    first, second, *rest = map(int, text.split("."))
    octets = []
    for number in [40 * first + second, *rest]:
        groups = [number & 127]
        while number := number >> 7:
            groups.insert(0, 128 | number & 127)
        octets += groups
    return element(OBJECT, bytes(octets))


def request(community, kind, repetitions, of, value):
    """A request of SNMPv2c for one variable."""
    variables = element(SEQUENCE, element(SEQUENCE, name(of), value))
    body = element(kind, integer(REQUEST_ID), integer(0), integer(repetitions), variables)
    return element(SEQUENCE, integer(1), element(STRING, community), body)


PRIORITY = "1.3.6.1.2.1.17.2.2.0"
KINDS = {
    "Get": [request(b"public", GET, 0, "1.3.6.1.2.1.17.1.2.0", element(NULL))],
    "GetBulk of 20": [request(b"public", GET_BULK, 20, "1.3.6.1.2.1.17.1", element(NULL))],
    "Set": [request(b"admin", SET, 0, PRIORITY, integer(value)) for value in (4096, 8192)],
}


def parts(content):
    """The tags and contents of BER's elements, one behind the other."""
    while content:
        length, start = content[1], 2
        if length > 128:
            start += length & 127
            length = int.from_bytes(content[2:start], "big")
        yield content[0], content[start:start + length]
        content = content[start + length:]


def check(kind, reply):
    """Ends the run unless the reply is one to such a request, without an error."""
    try:
        _, _, (tag, body) = parts(next(parts(reply))[1])
        (_, identifier), (_, status), _, _ = parts(body)
    except (ValueError, IndexError, StopIteration):
        sys.exit(f"{kind}: the first reply is no message of SNMP: {reply.hex()}")
    if (tag, identifier, status) != (RESPONSE, bytes([REQUEST_ID]), b"\0"):
        sys.exit(f"{kind}: a wrong first reply: {reply.hex()}")


def first_reply(process, port, octets):
    """The reply of a program that may not listen yet."""
    end = time.monotonic() + MOST_SECONDS_TO_START
    while process.poll() is None and time.monotonic() < end:
        with socket.socket(socket.AF_INET, socket.SOCK_DGRAM) as client:
            client.settimeout(1)
            client.connect((HOST, port))
            try:
                client.send(octets)
                return client.recv(65535)
            except ConnectionRefusedError:
                time.sleep(0.01)
            except TimeoutError:
                print(f"the first request to {process.args[0]} was lost")
    sys.exit(f"{process.args[0]}: no first reply, status {process.poll()}")


@contextlib.contextmanager
def started(*words):
    """A program that is killed at the end."""
    process = subprocess.Popen(words, stdin=subprocess.DEVNULL, stdout=subprocess.DEVNULL)
    try:
        yield process
    finally:
        process.kill()
        process.wait()


def bound():
    """A socket of UDP with a port that was free."""
    own = socket.socket(socket.AF_INET, socket.SOCK_DGRAM)
    own.bind((HOST, 0))
    return own


def port_of(own):
    """The port of a socket."""
    return own.getsockname()[1]


def free_ports(count):
    """Ports of UDP that are free."""
    with contextlib.ExitStack() as stack:
        return [port_of(stack.enter_context(bound())) for _ in range(count)]


def resident_kilobytes(process):
    """The resident memory of a running process, in kilobytes."""
    with open(f"/proc/{process.pid}/status") as status:
        for line in status:
            if line.startswith("VmRSS:"):
                return int(line.split()[1])
    sys.exit("no resident memory in /proc")


class Counts:
    """What came of one measurement of one server."""

    def __init__(self, line):
        replies, seconds, lost, errors = re.fullmatch(
            r"(\d+) replies in ([\d.]+) seconds, (\d+) lost, (\d+) with an error\n", line).groups()
        self.requests = int(replies) + int(lost)
        self.rate = int(replies) / float(seconds)
        self.lost = int(lost)
        self.errors = int(errors)


class Bench:
    """Measurements of one agent, in a folder of their own."""

    def __init__(self, agentd, seconds, is_forever, folder):
        self.agentd = agentd
        self.seconds = seconds
        self.is_forever = is_forever
        self.configuration = folder / "serve.toml"
        self.udp = folder / "udp"
        subprocess.run(["cc", "-O2", "-pthread", "-o", self.udp, BENCH / "udp.c"], check=True)

    def asked(self, process, port, kind, clients, seconds=None):
        """Counts of the replies of a server that has replied."""
        lines = "".join(octets.hex() + "\n" for octets in KINDS[kind])
        words = [self.udp, "ask", f"{HOST}:{port}", str(clients), str(seconds or self.seconds)]
        done = subprocess.run(words, input=lines, stdout=subprocess.PIPE, text=True)
        if done.returncode != 0 or process.poll() is not None:
            sys.exit(f"{kind}, {clients} clients: {process.args[0]} ended or failed, status {process.poll()}")
        return Counts(done.stdout)

    def of_echo(self, kind, workers, clients):
        """Counts of the echo."""
        port, = free_ports(1)
        with started(self.udp, "echo", f"{HOST}:{port}", str(workers)) as process:
            first_reply(process, port, KINDS[kind][0])
            return self.asked(process, port, kind, clients)

    def warm(self, process, port):
        """Asks an agent that is served without an end until its history is full and each worker has made some intervals."""
        requests = 0
        while self.is_forever and requests < FIRST_REQUESTS:
            requests += self.asked(process, port, "Get", 4, SECONDS_TO_WARM).requests

    def of_agent(self, kind, workers, clients):
        """Counts of an agent, and its resident kilobytes before and after."""
        with bound() as first_peer, bound() as second_peer:
            snmp, first, second = free_ports(3)
            places = {"snmp": snmp, "first": first, "second": second,
                      "first_peer": port_of(first_peer), "second_peer": port_of(second_peer)}
            texts = {key: f"{HOST}:{port}" for key, port in places.items()}
            rounds = INTERVAL if self.is_forever else MOST_ROUNDS
            self.configuration.write_text(CONFIGURATION.format(workers=workers, rounds=rounds, **texts))
            options = ["--forever"] if self.is_forever else []
            with started(self.agentd, "serve", *options, "--config", self.configuration) as process:
                check(kind, first_reply(process, snmp, KINDS[kind][-1]))
                self.warm(process, snmp)
                before = resident_kilobytes(process)
                counts = self.asked(process, snmp, kind, clients)
                return counts, before, resident_kilobytes(process)


def row(kind, workers, clients, replies, echo, ratio, lost):
    """A row of the table."""
    return f"{kind:13}  {workers:>7}  {clients:>7}  {replies:>9}  {echo:>9}  {ratio:>5}  {lost:>5}"


def measure(bench):
    """Prints the table and how memory grew; how many replies had an error."""
    print(row("kind", "workers", "clients", "replies/s", "echo/s", "ratio", "lost"))
    errors = 0
    for kind, workers, clients in itertools.product(KINDS, WORKERS, CLIENTS):
        echo = bench.of_echo(kind, workers, clients)
        agent, before, after = bench.of_agent(kind, workers, clients)
        ratio = f"{agent.rate / echo.rate:.3f}"
        print(row(kind, workers, clients, f"{agent.rate:,.0f}", f"{echo.rate:,.0f}", ratio, agent.lost), flush=True)
        if agent.errors:
            print(f"  of these replies {agent.errors} had an error")
            errors += agent.errors
        if (kind, workers, clients) == ("Get", 1, 1):
            grown = (after - before) * 1024 / agent.requests
            memory = f"{before} kB before {agent.requests} Gets, {after} kB behind them: {grown:.1f} octets a request"
    print(f"resident memory of agentd, 1 worker and 1 client: {memory}")
    return errors


def main():
    words = argparse.ArgumentParser(description=__doc__, formatter_class=argparse.RawDescriptionHelpFormatter)
    words.add_argument("--agentd", type=pathlib.Path, default=AGENTD)
    words.add_argument("--seconds", type=float, default=2)
    words.add_argument("--forever", action="store_true")
    asked = words.parse_args()
    if not asked.agentd.is_file():
        sys.exit(f"no {asked.agentd}")
    signal.signal(signal.SIGTERM, lambda *_: sys.exit(1))
    with tempfile.TemporaryDirectory() as folder:
        bench = Bench(asked.agentd.resolve(), asked.seconds, asked.forever, pathlib.Path(folder))
        sys.exit(measure(bench) > 0)


if __name__ == "__main__":
    main()
