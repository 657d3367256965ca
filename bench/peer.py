#!/usr/bin/env python3
"""Measures agentd beside Net-SNMP's snmpd over UDP: replies a second, and processor time for each.

    bench/peer.py [--agentd FILE] [--snmpd FILE] [--seconds N] [--workers N] [--clients N] [--turns N]

Both have the same instances under the same names: the tool walks agentd by GetNext and writes an `override` line of snmpd.conf
for each. Then it asks each in turn, for N seconds (2 by default), by N clients (4) with one request under way each, a Get and a
GetBulk of 20 from dot1dBase and from dot1dStp on; agentd has N workers (4), snmpd has one thread, as it has everywhere. Of N
turns (3) the median counts. Before each measurement it asks once, and the two replies are to name the same instances. Exit
status 1 where a program failed or a reply had an error. snmpd runs as whoever runs this tool, on a free port of 127.0.0.1.

A C compiler is needed, as `cc`, and Debian's package snmpd.
"""

import argparse
import os
import pathlib
import signal
import statistics
import sys
import tempfile

sys.dont_write_bytecode = True
import udp

BRIDGE = "1.3.6.1.2.1.17"
GET_NEXT, END_OF_VIEW = 0xA1, 0x82
TYPES = {0x02: "integer", 0x41: "counter", 0x42: "uinteger", 0x43: "timeticks"}
KINDS = {
    "Get": (udp.GET, 0, f"{BRIDGE}.2.2.0"),
    "GetBulk of 20 from dot1dBase": (udp.GET_BULK, 20, f"{BRIDGE}.1"),
    "GetBulk of 20 from dot1dStp": (udp.GET_BULK, 20, f"{BRIDGE}.2"),
}


def dotted(octets):
    """The dotted text of the content of an OBJECT IDENTIFIER."""
    numbers, last = [], 0
    for octet in octets:
        last = last << 7 | octet & 0x7F
        if octet < 0x80:
            numbers, last = numbers + [last], 0
    return ".".join(map(str, [numbers[0] // 40, numbers[0] % 40, *numbers[1:]]))


def bindings_in(reply):
    """The names, tags and contents of a reply."""
    _, _, (_, body) = udp.parts(next(udp.parts(reply))[1])
    _, _, _, (_, variables) = udp.parts(body)
    for _, binding in udp.parts(variables):
        (_, name), (tag, content) = udp.parts(binding)
        yield dotted(name), tag, content


def asked(kind):
    """The request of a kind."""
    pdu, repetitions, of = KINDS[kind]
    return udp.request(b"public", pdu, repetitions, of, udp.element(udp.NULL))


def override(name, tag, content):
    """The line of snmpd.conf by which it has an instance."""
    if tag == udp.STRING:
        return f"override {name} octet_str 0x{content.hex()}\n" if content else f'override {name} octet_str ""\n'
    if tag == udp.OBJECT:
        return f"override {name} object_id {dotted(content)}\n"
    return f"override {name} {TYPES[tag]} {int.from_bytes(content, 'big')}\n"


def walked(process, port):
    """All instances of an agent, by GetNext."""
    name, found = "1.3", []
    while True:
        octets = udp.request(b"public", GET_NEXT, 0, name, udp.element(udp.NULL))
        (name, tag, content), = bindings_in(udp.first_reply(process, port, octets))
        if tag == END_OF_VIEW:
            return found
        found.append((name, tag, content))


def processor_seconds(process):
    """The processor time of a process so far, in seconds."""
    text = pathlib.Path(f"/proc/{process.pid}/stat").read_text()
    user, system = text.rpartition(")")[2].split()[11:13]
    return (int(user) + int(system)) / os.sysconf("SC_CLK_TCK")


class Peers:
    """Measurements of both, which run side by side."""

    def __init__(self, bench, clients):
        self.bench = bench
        self.clients = clients

    def once(self, process, port, kind):
        """Replies a second, and microseconds of processor time for each."""
        udp.KINDS[kind] = [asked(kind)]
        before = processor_seconds(process)
        counts = self.bench.asked(process, port, kind, self.clients)
        used = processor_seconds(process) - before
        if counts.errors:
            sys.exit(f"{kind}: {counts.errors} replies of {process.args[0]} had an error")
        return counts.rate, 1e6 * used / max(1, counts.requests - counts.lost)

    def measure(self, agent, agent_port, snmpd, snmpd_port, turns):
        """Prints the table."""
        print(f"{'kind':30} {'agentd/s':>10} {'snmpd/s':>10} {'ratio':>6} {'agentd us':>10} {'snmpd us':>9}")
        for kind in KINDS:
            names = [[name for name, _, _ in bindings_in(udp.first_reply(process, port, asked(kind)))]
                     for process, port in ((agent, agent_port), (snmpd, snmpd_port))]
            if names[0] != names[1]:
                sys.exit(f"{kind}: the two replies name other instances: {names}")
            ours, theirs = [], []
            for _ in range(turns):
                ours.append(self.once(agent, agent_port, kind))
                theirs.append(self.once(snmpd, snmpd_port, kind))
            rate, used = (statistics.median(values) for values in zip(*ours))
            other, other_used = (statistics.median(values) for values in zip(*theirs))
            print(f"{kind:30} {rate:10,.0f} {other:10,.0f} {rate / other:6.2f} {used:10.1f} {other_used:9.1f}", flush=True)


def run(asked_for, folder):
    """Starts both, and measures them."""
    bench = udp.Bench(asked_for.agentd.resolve(), asked_for.seconds, False, folder)
    with udp.bound() as first_peer, udp.bound() as second_peer:
        snmp, first, second, other = udp.free_ports(4)
        places = {"snmp": snmp, "first": first, "second": second,
                  "first_peer": udp.port_of(first_peer), "second_peer": udp.port_of(second_peer)}
        texts = {key: f"{udp.HOST}:{port}" for key, port in places.items()}
        bench.configuration.write_text(
            udp.CONFIGURATION.format(workers=asked_for.workers, rounds=udp.INTERVAL, **texts))
        with udp.started(bench.agentd, "serve", "--forever", "--config", bench.configuration) as agent:
            instances = walked(agent, snmp)
            conf = folder / "snmpd.conf"
            conf.write_text(f"agentaddress udp:{udp.HOST}:{other}\nrocommunity public 127.0.0.1\npersistentDir {folder}\n"
                            + "".join(override(*instance) for instance in instances))
            with udp.started(asked_for.snmpd, "-f", "-C", "-c", conf, "-Lf", folder / "snmpd.log") as snmpd:
                print(f"{len(instances)} instances, {asked_for.workers} workers, {asked_for.clients} clients")
                Peers(bench, asked_for.clients).measure(agent, snmp, snmpd, other, asked_for.turns)


def main():
    words = argparse.ArgumentParser(description=__doc__, formatter_class=argparse.RawDescriptionHelpFormatter)
    words.add_argument("--agentd", type=pathlib.Path, default=udp.AGENTD)
    words.add_argument("--snmpd", default="/usr/sbin/snmpd")
    words.add_argument("--seconds", type=float, default=2)
    words.add_argument("--workers", type=int, default=4)
    words.add_argument("--clients", type=int, default=4)
    words.add_argument("--turns", type=int, default=3)
    asked_for = words.parse_args()
    if not asked_for.agentd.is_file():
        sys.exit(f"no {asked_for.agentd}")
    signal.signal(signal.SIGTERM, lambda *_: sys.exit(1))
    with tempfile.TemporaryDirectory() as folder:
        run(asked_for, pathlib.Path(folder))


main()
