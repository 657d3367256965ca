"""Bridges, each a run of the program agentd, and the LANs between them, for the tools beside this file.

A bridge answers the lines of a script: seconds, frames, links and requests. What it sends is carried over its LANs until nothing is under
way. Bridges have their seconds at different moments, one after another or a few at a time. BPDUs of different LANs arrive in drawn
orders, those of one LAN in the order in which they were sent. A port that sends more in one moment than its hold count allows is a
fault: such BPDUs would have no end.
"""

import collections
import contextlib
import dataclasses
import os
import pathlib
import random
import signal
import subprocess

from messages import contents, message_of, response_in
from spanning_tree import ALTERNATE, BACKUP, DESIGNATED, DISABLED, MOST, ROOT, Port, tree_of

SAMPLE = pathlib.Path(__file__).resolve().parent.parent / "docs" / "serve.toml"

PRIORITY, PORT_PRIORITY = 32768, 128
AT_ONCE = 20  # BPDUs of a port in one moment: twice the greatest hold count, since a restart sets its count to 0
LONGEST = 600  # seconds until a network counts as hung
FIRST_ADDRESS = 0x020000000001
STILL = 8  # seconds for which a network is to stay as it is: longer than three hello times
SPEED, COST = 1000, 20000  # of each port in Mb/s, and the cost that it has by it
CHUNK = 8  # ports that one request asks for
END = b"badline\n"  # the answer to an empty line, which follows each turn
STATES = {1: "disabled", 2: "discarding", 4: "learning", 5: "forwarding"}
FORWARDING = "forwarding"
SETTLED = {DISABLED: "disabled", ROOT: FORWARDING, DESIGNATED: FORWARDING, ALTERNATE: "discarding", BACKUP: "discarding"}
ALL = "FFFFFFFFFFFF"
LOCAL = "88B5"  # an EtherType for experiments (IEEE 802, 9.2.3)
COPIES = 400  # of one frame; with more it counts as one that circles


class Fault(Exception):
    """What a bridge or the network did that it must not."""


class Draws(random.Random):
    """Draws of a seeded generator, by its bits alone, so that a seed draws the same by each Python."""

    def below(self, limit):
        return self.getrandbits(32) % limit

    def between(self, least, most):
        return least + self.below(most - least + 1)

    def once_in(self, draws):
        return self.below(draws) == 0

    def one(self, items):
        return items[self.below(len(items))]

    def mixed(self, items):
        """The same items in a drawn order."""
        items = list(items)
        return [items.pop(self.below(len(items))) for _ in range(len(items))]


@dataclasses.dataclass
class Lan:
    """A LAN: its ports, each a bridge's name and a number; those whose link is down; the address of the host that is at it."""

    ports: list
    is_shared: bool
    down: set
    host: str


def hang(*_):
    """The programs of a network do not answer."""
    raise Fault(f"no end after {LONGEST} seconds")


def configuration(address, are_full):
    """The sample's policy for a bridge with these ports, each full duplex or not."""
    text = SAMPLE.read_text()
    rows = "".join(f"[[port]]\nifindex = {number}\nspeed = {SPEED}\nfull = {str(is_full).lower()}\n" for number, is_full in are_full)
    return f'address = "{address:012X}"\ncontexts = []\n{rows}{text[text.index("[[community]]"):]}'


class Bridge:
    """A bridge and its program. Settings are kept as they were written."""

    def __init__(self, name, address, count):
        self.name, self.address, self.count = name, address, count
        self.priority, self.is_silent = PRIORITY, False
        self.costs = dict.fromkeys(range(1, count + 1), COST)
        self.priorities = dict.fromkeys(range(1, count + 1), PORT_PRIORITY)
        self.enabled = dict.fromkeys(range(1, count + 1), True)
        self.asked = [f"request {message_of(f'get public {names}').hex()}" for names in self.names()]
        self.replies, self.shown = None, None

    def names(self):
        """What is asked of it, request by request."""
        columns = ["dot1dStpPortState", *(f"dot1dStpPortDesignated{what}" for what in ("Root", "Cost", "Bridge", "Port"))]
        yield "dot1dStpDesignatedRoot.0, dot1dStpRootCost.0, dot1dStpRootPort.0"
        for first in range(1, self.count + 1, CHUNK):
            numbers = range(first, min(first + CHUNK, self.count + 1))
            yield ", ".join(f"{column}.{number}" for number in numbers for column in columns)

    @property
    def identifier(self):
        """Its priority and its address (9.2.5)."""
        return self.priority << 48 | self.address

    def port_identifier(self, number):
        """A port's priority and its number (9.2.7)."""
        return self.priorities[number] << 8 | number

    def begin(self, agentd, file, are_full):
        """Starts the program."""
        file.write_text(configuration(self.address, are_full))
        words = [agentd, "script", "--config", file]
        self.process = subprocess.Popen(words, stdin=subprocess.PIPE, stdout=subprocess.PIPE, bufsize=0)

    def write(self, lines):
        """Writes lines to it."""
        os.write(self.process.stdin.fileno(), ("\n".join(lines) + "\n\n").encode())

    def read(self):
        """The lines that it answers to what was written last."""
        octets = b""
        while not octets.endswith(END):
            more = os.read(self.process.stdout.fileno(), 65536)
            if not more:
                raise Fault(f"{self.name} ended, status {self.process.wait()}")
            octets += more
        return octets.decode().split("\n")[:-2]

    def end(self):
        """Ends the program; gives its status."""
        self.process.stdin.close()
        self.process.stdout.close()
        return self.process.wait()

    def note(self, name, number, value):
        """Keeps what a Set wrote."""
        if name == "dot1dStpPriority":
            self.priority = value
        elif name == "dot1dStpPortEnable":
            self.enabled[number] = value == 1
        elif name == "dot1dStpPortPriority":
            self.priorities[number] = value
        elif name in ("dot1dStpPortAdminPathCost", "dot1dStpPortPathCost32", "dot1dStpPortPathCost"):
            self.costs[number] = value or COST

    def show(self, replies):
        """What it shows: root, cost, root port, and of each port state and vector."""
        if replies != self.replies:
            (root, cost, port), *more = [integers_in(reply) for reply in replies]
            rows = [one for values in more for one in zip(*[iter(values)] * 5)]
            self.replies = replies
            self.shown = root, cost, port, {number: (STATES[state], tuple(row)) for number, (state, *row) in enumerate(rows, 1)}
        return self.shown


def integers_in(reply):
    """The values of a reply, each as one number."""
    octets = bytes.fromhex(reply.removeprefix("reply "))
    ((_, content),) = contents(octets)
    *_, (_, pdu) = contents(content)
    *_, (_, bindings) = contents(pdu)
    return [int.from_bytes(list(contents(binding))[1][1], "big") for _, binding in contents(bindings)]


class Network:
    """Bridges and LANs, of which a seed draws the order in which things happen."""

    def __init__(self, seed):
        self.draws = Draws(seed)
        self.bridges, self.lans, self.lan_of = {}, {}, {}
        self.queues = collections.defaultdict(collections.deque)  # BPDUs under way, by their bridge and port
        self.bpdus = self.frames = self.moments = self.twice = self.circled = 0

    def add_bridge(self, name, address, count):
        """Adds a bridge of some ports."""
        self.bridges[name] = Bridge(name, address, count)

    def add_lan(self, name, ports, is_shared):
        """Adds a LAN, whose links are down. Ports of a shared one are half duplex."""
        self.lans[name] = Lan(ports, is_shared, set(ports), f"0200000001{len(self.lans) + 1:02X}")
        self.lan_of |= dict.fromkeys(ports, name)

    @contextlib.contextmanager
    def running(self, agentd, folder):
        """The network while its programs run, for LONGEST seconds at most."""
        signal.signal(signal.SIGALRM, hang)
        signal.alarm(LONGEST)
        try:
            for name, bridge in self.bridges.items():
                ports = [(number, self.is_full(name, number)) for number in range(1, bridge.count + 1)]
                bridge.begin(agentd, pathlib.Path(folder) / f"{name}.toml", ports)
            self.order = self.draws.mixed(self.bridges)
            yield self
        finally:
            signal.alarm(0)
            for bridge in self.bridges.values():
                if hasattr(bridge, "process"):
                    bridge.process.kill()
                    bridge.end()

    def is_full(self, name, number):
        """Whether a port is full duplex."""
        lan = self.lan_of.get((name, number))
        return lan is None or not self.lans[lan].is_shared

    def is_on(self, name, number):
        """Whether a port is enabled and its link is up."""
        lan = self.lan_of.get((name, number))
        return lan is not None and (name, number) not in self.lans[lan].down and self.bridges[name].enabled[number]

    def exchanged(self, turns):
        """What some bridges answer to the lines of each, all at one time; what they send is put under way."""
        for name, lines in turns.items():
            self.bridges[name].write(lines)
        answers = {name: self.bridges[name].read() for name in turns}
        for name in self.draws.mixed(answers):
            for line in answers[name]:
                if line.startswith("bpdu "):
                    _, port, octets = line.split(" ")
                    self.carry(name, int(port), octets)
        return {name: [line for line in lines if not line.startswith("bpdu ")] for name, lines in answers.items()}

    def carry(self, name, port, octets):
        """Puts a BPDU under way to all other ports of its LAN."""
        self.bpdus += 1
        self.sent[name, port] += 1
        if self.sent[name, port] > AT_ONCE:
            raise Fault(f"{name}.{port} sends without an end")
        for other in self.heard_by(name, port):
            self.queues[other].append(octets)

    def heard_by(self, name, port):
        """The other ports of a port's LAN whose links are up, if its own is."""
        lan = self.lans.get(self.lan_of.get((name, port)))
        if lan is None or (name, port) in lan.down:
            return []
        return [one for one in lan.ports if one != (name, port) and one not in lan.down]

    def moment(self, turns, has_frames=False):
        """What bridges answer to these lines; then BPDUs are carried until none is under way. With `has_frames` frames go among them."""
        self.sent = collections.Counter()
        answers = self.exchanged(turns)
        if has_frames:
            self.deliver(self.draws.below(4))
            self.probe()
        self.deliver()
        return answers

    def deliver(self, turns=None):
        """Carries BPDUs until none is under way, or in so many turns."""
        while self.queues and turns != 0:
            turns = None if turns is None else turns - 1
            waiting = self.draws.mixed(sorted({name for name, _ in self.queues}))
            now = waiting[:self.draws.between(1, len(waiting))]
            self.exchanged({name: lines for name in now if (lines := self.arriving(name))})

    def arriving(self, name):
        """The lines of some BPDUs that arrive at a bridge now, one at least; those for a silent one are lost."""
        lines = []
        ports = sorted(port for bridge, port in self.queues if bridge == name)
        while ports and (not lines or self.draws.once_in(2)):
            port = self.draws.one(ports)
            lines.append(f"frame {port} {self.queues[name, port].popleft()}")
            if not self.queues[name, port]:
                del self.queues[name, port]
                ports.remove(port)
        return lines if not self.bridges[name].is_silent else []

    def put(self, name, *settings, has_frames=False):
        """Has a bridge set settings, each a name, a port or 0, and a value."""
        bindings = ", ".join(f"{one}.{number} INTEGER {value}" for one, number, value in settings)
        answers = self.moment({name: [f"request {message_of(f'set admin {bindings}').hex()}"]}, has_frames)
        status = response_in(bytes.fromhex(answers[name][0].removeprefix("reply ")))[0]
        if status != "noError":
            raise Fault(f"{name} answers {status} to a Set of {bindings}")
        for setting in settings:
            self.bridges[name].note(*setting)

    def link(self, ports, is_up, has_frames=False):
        """Has links of ports go up or down at one moment. What was under way to a port whose link goes down is lost."""
        turns = collections.defaultdict(list)
        for name, port in self.draws.mixed(ports):
            lan = self.lans[self.lan_of[name, port]]
            (lan.down.discard if is_up else lan.down.add)((name, port))
            self.queues.pop((name, port), None)
            if not self.bridges[name].is_silent:
                turns[name].append(f"link {port} {'up' if is_up else 'down'}")
        self.moment(turns, has_frames)

    def silence(self, name):
        """Has a bridge be silent from now on, whose links stay up: it hears, sends and forwards nothing, and has no seconds."""
        self.bridges[name].is_silent = True

    def living(self):
        """The bridges that are not silent."""
        return {name: bridge for name, bridge in self.bridges.items() if not bridge.is_silent}

    def is_living(self, port):
        """Whether a port is of a bridge that is not silent."""
        return not self.bridges[port[0]].is_silent

    def pass_second(self, has_frames):
        """Passes a second: each bridge has its own, at its place in the order, one or more at a time. Frames go out at a drawn moment."""
        order = [name for name in self.order if not self.bridges[name].is_silent]
        groups = []
        while order:
            count = self.draws.between(1, len(order))
            groups.append(order[:count])
            order = order[count:]
        chosen = self.draws.below(len(groups))
        for number, names in enumerate(groups):
            self.moment(dict.fromkeys(names, ["tick 1"]), has_frames and number == chosen)

    def pass_part(self):
        """Passes a part of a second, so that the next begins at another place of the order."""
        count = self.draws.below(len(self.order))
        first = [name for name in self.order[:count] if not self.bridges[name].is_silent]
        for name in first:
            self.moment({name: ["tick 1"]})
        self.order = self.order[count:] + self.order[:count]

    def settle(self, limit, still, has_frames):
        """Passes seconds until the bridges are the tree of the graph and stay so for as many seconds as `still`. Gives the seconds until
        all were joined to the root without a ring, and until each port was in its state. Where that is not so after `limit` seconds,
        it is a fault."""
        joined = settled = last = None
        tree = self.tree()
        for second in range(limit + still + 1):
            shown = self.shown()
            if shown != last:
                unlike, joining, others = self.compared(tree, shown)
                last = shown
            joined = None if unlike or joining else second if joined is None else joined
            settled = None if unlike or joining or others else second if settled is None else settled
            if settled is None and second >= limit:
                raise Fault("\n".join([f"not settled after {limit} seconds", *unlike, *joining, *others]))
            if settled is not None and second == settled + still:
                break
            self.pass_second(has_frames)
        self.reach()
        return joined, settled

    def probe(self):
        """Sends a frame from the host of each LAN to all, and one to a drawn host. Counts the moments in which such a frame arrived at a
        host twice, or circled."""
        hosts = [name for name in self.lans if self.reached(name)]
        self.moments += 1
        is_twice = is_circled = False
        for is_to_all in True, False:
            targets = {one: None if is_to_all else self.draws.one(hosts) for one in hosts}
            arrived, circled = self.flood(targets)
            self.frames += len(targets)
            is_twice |= any(count > 1 for counts in arrived.values() for count in counts.values())
            is_circled |= bool(circled)
        self.twice += is_twice
        self.circled += is_circled

    def reach(self):
        """Each host reaches each other of its part of the network once: first by frames to one host each, so that an address which is
        still known at a place that it left is found, and then by frames to all."""
        hosts = [name for name in self.lans if self.reached(name)]
        parts = self.parts()
        others = {one: [other for other in hosts if parts[other] == parts[one] and other != one] for one in hosts}
        for is_to_all in False, True:
            targets = {one: None if is_to_all else self.draws.one(rest) for one, rest in others.items() if rest}
            arrived, _ = self.flood(targets)
            for one, target in targets.items():
                expected = dict.fromkeys(others[one], 1) | {one: 1} if target is None else {target: 1}
                if arrived[one] != expected:
                    raise Fault(f"settled, and a frame from {one} to {target or 'all'} arrives at {dict(arrived[one])}; "
                                f"expected {expected}")

    def parts(self):
        """A number for each LAN, which is one for those that living bridges join."""
        part = {name: number for number, name in enumerate(self.lans)}
        for name, bridge in self.living().items():
            joined = {part[self.lan_of[name, number]] for number in range(1, bridge.count + 1) if self.is_on(name, number)}
            part = {lan: min(joined) if one in joined else one for lan, one in part.items()}
        return part

    def flood(self, targets):
        """Sends a frame from the host of each of some LANs to that of another, or to all where it is None. Gives how often it was at the
        hosts that it is for, the sender's once; and the frames that circled: a bridge forwarded them that had done so before."""
        arrived = {one: collections.Counter({one: 1} if target is None else {}) for one, target in targets.items()}
        circled, copies = set(), collections.Counter()
        going = [(one, port, frozenset()) for one in targets for port in self.reached(one)]
        while going:
            turns = collections.defaultdict(list)
            for frame in going:
                turns[frame[1][0]].append(frame)
            answers = self.exchanged({name: [self.line(one, targets[one], port) for one, (_, port), _ in frames]
                                      for name, frames in turns.items()})
            going = []
            for name, frames in turns.items():
                for (one, _, passed), answer in zip(frames, answers[name], strict=True):
                    ports = [] if answer == "forward -" else answer.removeprefix("forward ").split(",")
                    copies[one] += len(ports)
                    if ports and (name in passed or copies[one] > COPIES):
                        circled.add(one)
                        continue
                    for port in map(int, ports):
                        self.arrive((name, port), targets[one], arrived[one])
                        going += [(one, other, passed | {name}) for other in self.heard_by(name, port) if self.is_living(other)]
        return arrived, circled

    def line(self, one, target, port):
        """The line of a frame from a LAN's host at a port."""
        return f"frame {port} {self.lans[target].host if target else ALL}{self.lans[one].host}{LOCAL}"

    def arrive(self, sender, target, counts):
        """Counts a frame that a port sends, at the host of its LAN."""
        lan = self.lan_of.get(sender)
        if lan is not None and sender not in self.lans[lan].down and target in (None, lan):
            counts[lan] += 1

    def reached(self, lan):
        """The ports of living bridges at a LAN whose links are up."""
        return [port for port in self.lans[lan].ports if port not in self.lans[lan].down and self.is_living(port)]

    def shown(self):
        """What each living bridge shows."""
        bridges = self.living()
        answers = self.exchanged({name: bridge.asked for name, bridge in bridges.items()})
        return {name: bridge.show(answers[name]) for name, bridge in bridges.items()}

    def tree(self):
        """The places in the tree of all living bridges, by the graph alone."""
        ports = {}
        for name, bridge in self.living().items():
            ports[bridge.identifier] = [Port(number, bridge.port_identifier(number), bridge.costs[number],
                                             self.lan_of[name, number] if self.is_on(name, number) else None)
                                        for number in range(1, bridge.count + 1)]
        return tree_of(ports)

    def compared(self, tree, shown):
        """How far what the bridges show is from the tree: lines of what differs in roots, costs and vectors; of the ports that join bridges
        to the root or keep frames from a ring and are in another state; and of all other ports that are."""
        heard = {place.vectors[place.root_port] for place in tree.values() if place.root_port}
        unlike, joining, others = [], [], []
        for name, (*vector, ports) in shown.items():
            place = tree[self.bridges[name].identifier]
            expected = [place.root, min(place.cost, MOST), place.root_port]
            if vector != expected:
                unlike.append(f"  {name}: root, cost and port {text_of(vector)}; expected {text_of(expected)}")
            for number, (state, vector) in ports.items():
                role, best = place.roles[number], place.vectors[number]
                if vector != (best[0], min(best[1], MOST), *best[2:]):
                    unlike.append(f"  {name}.{number}: {text_of(vector)}; expected {text_of(best)}, {role}")
                if state != SETTLED[role]:
                    is_joining = role != DESIGNATED or best in heard
                    (joining if is_joining else others).append(f"  {name}.{number}: {state}; expected {SETTLED[role]}, {role}")
        return unlike, joining, others


def text_of(vector):
    """A vector for people."""
    return " ".join(f"{one:X}" for one in vector)
