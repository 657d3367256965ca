#!/usr/bin/env python3
"""Measures how fast frames are carried: by agentd from port to port, and between two hosts through the feeder, beside other switches.

    bench/frames.py [--agentd FILE] [--other FILE] [--seconds N] [--turns N] [--rates N ..] [--streams] [--only TEXT]

It needs root and network namespaces, and a C compiler as `cc`. First frames of 64 and of 1,514 octets go over UDP from the `listen` of
one port to the `peer` of another, through the agent and through the least that can stand in its place, the switch of bench/frames.c.
Then they go between two hosts' interfaces: through the feeder with either of these, and beside it through the kernel's bridge,
Open vSwitch without the kernel's part and vde_switch, where these are there. They are sent at each rate a second (N ..; 0: as many as
can be). Then a stream of TCP goes the same ways, with --streams that alone, with --only the ways alone whose names have TEXT. Each is measured in each of N turns (3), for N seconds
(2); the line has the median of the frames that came and the most of them, the frames of 100 that were lost in the median and the
best turn, and the processor time of feeder and switch for a frame that came. Hosts leave checksums and segments to their interfaces; with `tx off` they do not.

FILE of --agentd is the agent; without it, what `rt run` leaves in crates/agentd/out/agentd, and where that is not there, no agent
is measured. That of --other is another program that takes the words of the feeder but for --agentd; it is measured beside it with the
least switch.
"""

import argparse
import contextlib
import os
import pathlib
import re
import select
import shutil
import signal
import socket
import statistics
import subprocess
import sys
import time

sys.dont_write_bytecode = True
ROOT = pathlib.Path(__file__).resolve().parent.parent
sys.path.insert(0, str(ROOT / "tools"))
import namespaces
from messages import message_of

AGENTD = ROOT / "crates" / "agentd" / "out" / "agentd"
FEEDER = ROOT / "build" / "agentd-feeder"
FRAMES = ROOT / "build" / "frames"
SAMPLE = ROOT / "docs" / "serve.toml"
SNMP = ("127.0.0.1", 16161)  # of the sample, as these
PORTS = ["127.0.0.1:16001", "127.0.0.1:16101", "127.0.0.1:16002", "127.0.0.1:16102"]
LENGTHS = (64, 1514)
RATES = (50_000, 150_000, 0)
STREAM = "192.0.2.2:5001"
LONGEST = 30  # seconds until a program is ready
SCHEMA = pathlib.Path("/usr/share/openvswitch/vswitch.ovsschema")
MINIMAL = "the least switch"


class Bench:
    """The programs that are measured, in the namespaces of one way of frames."""

    def __init__(self, asked, spaces):
        self.asked, self.spaces = asked, spaces
        self.frames = FRAMES
        # The ports of the sample, as `agentd check --ports` writes them.
        self.check = spaces.folder / "agentd"
        self.check.write_text(f"#!/bin/sh\necho snmp {':'.join(map(str, SNMP))}\necho 1 {PORTS[0]} {PORTS[1]}\necho 2 {PORTS[2]} {PORTS[3]}\n")
        self.check.chmod(0o755)
        self.measured = []

    def start(self, space, *words, **named):
        """A program whose processor time counts."""
        process = self.spaces.start(space, *words, **named)
        self.measured.append(process)
        return process

    def nanoseconds(self):
        """The processor time so far, of all threads."""
        total = 0
        for process in self.measured:
            for file in pathlib.Path(f"/proc/{process.pid}/task").glob("*/schedstat"):
                with contextlib.suppress(OSError):
                    total += int(file.read_text().split()[0])
        return total

    def serve(self, space, agentd):
        """The agent, whose ports forward; without one, the least switch."""
        if agentd is None:
            self.start(space, self.frames, "switch", *PORTS)
            return
        self.start(space, agentd, "serve", "--forever", "--config", SAMPLE)
        with namespaces.inside(space):
            asker = socket.socket(socket.AF_INET, socket.SOCK_DGRAM)
        asker.connect(SNMP)
        edges = ", ".join(f"dot1dStpPortAdminEdgePort.{port} INTEGER 1" for port in (1, 2))
        end = time.monotonic() + LONGEST
        while time.monotonic() < end:
            with contextlib.suppress(OSError):
                asker.send(message_of(f"set admin id 1 {edges}"))
                if select.select([asker], [], [], 1)[0] and asker.recv(65535):
                    return
            time.sleep(0.1)
        raise namespaces.Failed("the agent does not answer")

    def feed(self, space, program):
        """A feeder of the interfaces e1 and e2."""
        words = ["--agentd", self.check] if program == FEEDER else []
        feeder = self.start(space, program, *words, "--config", SAMPLE, "e1", "e2")
        written = "".join(feeder.stderr.readline() for _ in range(3))
        if not written.endswith("feeder: ready\n"):
            raise namespaces.Failed(written + feeder.stderr.read())


class Hosts:
    """Two hosts, with an interface each, whose other ends are e1 and e2 of a namespace between them."""

    def __init__(self, spaces):
        self.between, *self.hosts = (spaces.space(name) for name in ("between", "host1", "host2"))
        for number, host in enumerate(self.hosts, 1):
            spaces.cable(self.between, f"e{number}", host, "eth0")
            namespaces.run("ip", "-n", host, "address", "add", f"192.0.2.{number}/24", "dev", "eth0")

    def leave_nothing(self):
        """Has the hosts finish checksums and cut segments themselves."""
        for host in self.hosts:
            namespaces.run("ip", "netns", "exec", host, "ethtool", "-K", "eth0", "tx", "off")


def bridge(bench, space):
    """The kernel's bridge."""
    namespaces.run("ip", "-n", space, "link", "add", "br0", "type", "bridge")
    for interface in "e1", "e2", "br0":
        words = ["up"] if interface == "br0" else ["master", "br0", "up"]
        namespaces.run("ip", "-n", space, "link", "set", interface, *words)


def open_vswitch(bench, hosts):
    """Open vSwitch without the kernel's part, to which hosts are to leave nothing."""
    hosts.leave_nothing()
    space, folder = hosts.between, bench.spaces.folder
    names = {**os.environ, **dict.fromkeys(("OVS_RUNDIR", "OVS_LOGDIR", "OVS_DBDIR"), str(folder))}
    (folder / "conf.db").unlink(missing_ok=True)
    namespaces.run("ovsdb-tool", "create", folder / "conf.db", SCHEMA)
    words = [f"--remote=punix:{folder}/db.sock", f"--unixctl={folder}/db.ctl", "--verbose=off"]
    bench.spaces.start(space, "ovsdb-server", folder / "conf.db", *words, env=names)
    while not (folder / "db.sock").exists():
        time.sleep(0.1)
    say = ["ovs-vsctl", f"--db=unix:{folder}/db.sock", "--timeout=20"]
    namespaces.run(*say, "--no-wait", "init")
    bench.start(space, "ovs-vswitchd", f"unix:{folder}/db.sock", f"--unixctl={folder}/vs.ctl", "--verbose=off", env=names)
    namespaces.run(*say, "add-br", "br0", "--", "set", "bridge", "br0", "datapath_type=netdev")
    for interface in "e1", "e2":
        namespaces.run(*say, "add-port", "br0", interface)


def vde_switch(bench, hosts):
    """vde_switch, whose two interfaces are the hosts' own."""
    for host in hosts.hosts:
        namespaces.run("ip", "-n", host, "link", "del", "eth0")
    taps = [word for number in (1, 2) for word in ("-tap", f"tap{number}")]
    words = ["ip", "netns", "exec", hosts.between, "vde_switch", *taps, "-s", bench.spaces.folder / "vde"]
    # It ends where its standard input does.
    process = subprocess.Popen(words, stdin=subprocess.PIPE, stdout=subprocess.DEVNULL, stderr=subprocess.PIPE, start_new_session=True)
    bench.spaces.made.callback(namespaces.end, process)
    bench.measured.append(process)
    end = time.monotonic() + LONGEST
    for number, host in enumerate(hosts.hosts, 1):
        while True:
            with contextlib.suppress(namespaces.Failed):
                namespaces.run("ip", "-n", hosts.between, "link", "set", f"tap{number}", "netns", host, "name", "eth0", "up")
                break
            if time.monotonic() > end:
                raise namespaces.Failed("vde_switch makes no interface")
            time.sleep(0.1)
        namespaces.run("ip", "-n", host, "address", "add", f"192.0.2.{number}/24", "dev", "eth0")


def fed(program, agentd, is_off=False):
    """What opens a way through a feeder and the agent or the least switch."""
    def opened(bench, hosts):
        if is_off:
            hosts.leave_nothing()
        bench.feed(hosts.between, program)
        bench.serve(hosts.between, agentd)
    return opened


def ways(asked):
    """The ways between two hosts by their names, each with what opens it."""
    found = {f"feeder, {MINIMAL}": fed(FEEDER, None)}
    if shutil.which("ethtool"):
        found[f"feeder, {MINIMAL}, tx off"] = fed(FEEDER, None, True)
        if asked.other:
            found[f"other feeder, {MINIMAL}, tx off"] = fed(asked.other, None, True)
    if asked.agentd.exists():
        found["feeder, agentd"] = fed(FEEDER, asked.agentd)
    found["the kernel's bridge"] = lambda bench, hosts: bridge(bench, hosts.between)
    if shutil.which("ovs-vswitchd") and shutil.which("ethtool") and SCHEMA.exists():
        found["Open vSwitch, netdev, tx off"] = open_vswitch
    if shutil.which("vde_switch"):
        found["vde_switch"] = vde_switch
    return found


def measured(bench, words, spaces):
    """The numbers that a measuring program writes, and the processor time meanwhile."""
    before = bench.nanoseconds()
    numbers = [float(word) for word in namespaces.run(*words).split()]
    return (*numbers, bench.nanoseconds() - before)


def frames_of(bench, place, length, rate):
    """Frames sent, frames that came, seconds, nanoseconds."""
    space, *way = place
    words = ["ip", "netns", "exec", space, bench.frames, *way, str(length), str(rate), str(bench.asked.seconds)]
    return measured(bench, words, bench.spaces)


def stream_of(bench, hosts):
    """Octets of a stream of TCP that came, seconds, nanoseconds."""
    receiver = subprocess.Popen(["ip", "netns", "exec", hosts.hosts[1], bench.frames, "listen", STREAM], stdout=subprocess.PIPE, text=True)
    time.sleep(0.5)
    before = bench.nanoseconds()
    try:
        words = ["ip", "netns", "exec", hosts.hosts[0], bench.frames, "stream", STREAM, str(bench.asked.seconds)]
        namespaces.run(*words)
        written, _ = receiver.communicate(timeout=LONGEST)
    finally:
        receiver.kill()
        receiver.wait()
    return (*map(float, written.split()), bench.nanoseconds() - before)


def over_udp(asked, agentd, kept):
    """Frames from `listen` to `peer`."""
    with namespaces.Spaces() as spaces:
        bench, space = Bench(asked, spaces), spaces.space("agent")
        bench.serve(space, agentd)
        time.sleep(0.5)
        for length in LENGTHS:
            for rate in asked.rates:
                found = frames_of(bench, (space, "udp", PORTS[0], PORTS[3]), length, rate)
                kept.setdefault((f"UDP alone, {'agentd' if agentd else MINIMAL}", length, rate), []).append(found)


def between_hosts(asked, name, opened, kept, streams):
    """Frames and a stream between two hosts."""
    with namespaces.Spaces() as spaces:
        bench, hosts = Bench(asked, spaces), Hosts(spaces)
        opened(bench, hosts)
        time.sleep(1)
        streams.setdefault(name, []).append(stream_of(bench, hosts))
        print(f"{name}: a stream of {8e-6 * streams[name][-1][0] / streams[name][-1][1]:,.0f} Mbit/s", file=sys.stderr, flush=True)
        if asked.streams:
            return
        # The far ends of both cables stand in one namespace, in which frames are sent and counted.
        one, other = hosts.hosts
        namespaces.run("ip", "-n", one, "link", "set", "eth0", "name", "w1")
        namespaces.run("ip", "-n", other, "link", "set", "eth0", "name", "w2", "netns", one)
        for interface in "w1", "w2":
            namespaces.run("ip", "-n", one, "address", "flush", "dev", interface)
            namespaces.run("ip", "-n", one, "link", "set", interface, "up")
        time.sleep(1.5)
        for length in LENGTHS:
            for rate in asked.rates:
                kept.setdefault((name, length, rate), []).append(frames_of(bench, (one, "wire", "w1", "w2"), length, rate))


def print_frames(kept):
    """A line for each way, length and rate."""
    print(f"\n{'frames':40} {'octets':>6} {'sent/s':>9} {'came/s':>9} {'most':>9} {'lost':>7} {'least':>7} {'us':>6}")
    for (name, length, _), rows in kept.items():
        sent = statistics.median(sent / seconds for sent, _, seconds, _ in rows)
        came = [count / seconds for _, count, seconds, _ in rows]
        lost = [100 * max(0, 1 - count / sent) for sent, count, _, _ in rows]
        used = statistics.median(spent / 1e3 / max(1, count) for _, count, _, spent in rows)
        print(f"{name:40} {length:6} {sent:9,.0f} {statistics.median(came):9,.0f} {max(came):9,.0f} {statistics.median(lost):6.2f}%"
              f" {min(lost):6.2f}% {used:6.2f}")


def print_streams(streams):
    """A line for each way of a stream."""
    print(f"\n{'a stream of TCP':40} {'Mbit/s':>9} {'most':>9} {'us for 1,448 octets':>20}")
    for name, rows in streams.items():
        rates = [8e-6 * octets / seconds for octets, seconds, _ in rows]
        used = statistics.median(1448e-3 * spent / max(1, octets) for octets, _, spent in rows)
        print(f"{name:40} {statistics.median(rates):9,.0f} {max(rates):9,.0f} {used:20.2f}")


def main():
    words = argparse.ArgumentParser(description=__doc__, formatter_class=argparse.RawDescriptionHelpFormatter)
    words.add_argument("--agentd", type=pathlib.Path, default=AGENTD)
    words.add_argument("--other", type=pathlib.Path)
    words.add_argument("--seconds", type=float, default=2)
    words.add_argument("--turns", type=int, default=3)
    words.add_argument("--rates", type=int, nargs="+", default=RATES)
    words.add_argument("--streams", action="store_true")
    words.add_argument("--only", default="")
    asked = words.parse_args()
    why = namespaces.lacking()
    if why:
        sys.exit(f"frames are not measured: {why}")
    if not FEEDER.exists():
        sys.exit(f"there is no {FEEDER}: make feeder")
    namespaces.end_well()
    kept, streams = {}, {}
    try:
        namespaces.run("cc", "-O2", "-pthread", "-D_GNU_SOURCE", "-o", FRAMES, ROOT / "bench" / "frames.c")
        for _ in range(asked.turns):
            for agentd in [None, *([asked.agentd] if asked.agentd.exists() else [])]:
                if not asked.streams and not asked.only:
                    over_udp(asked, agentd, kept)
            for name, opened in ways(asked).items():
                if asked.only in name:
                    between_hosts(asked, name, opened, kept, streams)
    except namespaces.Failed as fault:
        sys.exit(f"frames: {fault}")
    if kept:
        print_frames(kept)
    print_streams(streams)


main()
