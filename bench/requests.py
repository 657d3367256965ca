"""Measures requests as lines of a script: lines a second of each, by ports and learned rows, reading and writing the lines included."""

import pathlib
import subprocess
import sys
import tempfile
import threading
import time

ROOT = pathlib.Path(__file__).resolve().parent.parent
sys.dont_write_bytecode = True
sys.path.insert(0, str(ROOT / "tools"))
from messages import EMPTY, dotted, message_of, response_in

LINES = 20_000  # of each request
COMMUNITY = "public"
BRIDGE = "1.3.6.1.2.1.17"
# How many instances there are beside the columns of ports and of learned rows, and how many columns each has.
SCALARS, PORT_COLUMNS, ROW_COLUMNS = 21, 27, 3

# What of a bridge is seen: its families, by subtree, mask and whether it is included.
ALL = [(BRIDGE, "", "true")]
PAST_ROWS = [(BRIDGE, "", "true"), (f"{BRIDGE}.4.3", "", "false")]
ONE_ROW = [(f"{BRIDGE}.4.3.1.0.2.0.0.1.2.0", "FFDF80", "true")]
SCENES = [(2, 10, ALL), (2, 1024, ALL), (32, 10, ALL), (32, 1024, ALL), (32, 1024, PAST_ROWS), (32, 1024, ONE_ROW)]


def configuration(ports, families):
    """A configuration of so many ports, whose community reads and writes the view of these families."""
    port = "[[port]]\nifindex = 1\nspeed = 1000\nfull = true\n" * ports
    rows = "".join(f'[[family]]\nview = "seen"\nsubtree = "{subtree}"\nmask = "{mask}"\nincluded = {included}\n'
                   for subtree, mask, included in families)
    return f"""address = "02000000000A"
contexts = []
community = [{{ index = "p", name = "{COMMUNITY}", security = "{COMMUNITY}", context = "" }}]
group = [{{ model = 2, name = "{COMMUNITY}", group = "all" }}]
access = [{{ group = "all", prefix = "", model = 2, level = 1, exact = true, read = "seen", write = "seen", notify = "" }}]
{rows}{port}"""


def station(number):
    """The address of a station."""
    return bytes.fromhex("02000001") + number.to_bytes(2, "big")


def row_of(number):
    """dot1dTpFdbPort of a station."""
    return "dot1dTpFdbPort." + ".".join(map(str, station(number)))


class Agent:
    """A running agent, which is asked line by line or by many lines at once."""

    def __init__(self, program, file):
        words = [program, "script", "--config", file]
        self.process = subprocess.Popen(words, stdin=subprocess.PIPE, stdout=subprocess.PIPE)

    def __enter__(self):
        return self

    def __exit__(self, *_):
        self.process.stdin.close()
        self.process.stdout.read()
        if self.process.wait() != 0:
            sys.exit("the agent failed")

    def write(self, lines):
        self.process.stdin.write(lines)
        self.process.stdin.flush()

    def line(self):
        """The next line of its output, but for the BPDUs that it sends."""
        while (line := self.process.stdout.readline()).startswith(b"bpdu "):
            pass
        return line

    def learn(self, ports, rows):
        """Makes all ports forward, and learns so many stations by port 1."""
        self.write("".join(f"link {port} up\n" for port in range(1, ports + 1)).encode() + b"tick 30\n")
        self.write(b"".join(b"frame 1 FFFFFFFFFFFF%s0800\n" % station(number).hex().encode() for number in range(rows)))
        for _ in range(rows):
            if not self.line().startswith(b"forward"):
                sys.exit("a frame is not answered")

    def asked(self, message):
        """The line of the reply to a message, which has no error, and its names and tags."""
        self.write(line_of(message))
        line = self.line()
        status, bindings = response_in(bytes.fromhex(line.decode().removeprefix("reply ")))
        if status != "noError":
            sys.exit(f"{message}: {status}")
        return line, bindings

    def seconds(self, lines, replies):
        """How long these lines take, to which these come."""
        awaited = b"".join(replies)
        writer = threading.Thread(target=self.write, args=(b"".join(lines),))
        start = time.monotonic()
        writer.start()
        seen = self.process.stdout.read(len(awaited))
        taken = time.monotonic() - start
        writer.join()
        if seen != awaited:
            sys.exit("another answer than before")
        return taken

    def measure(self, what, bindings, *messages):
        """Measures messages that are sent in turn, each of which so many bindings are answered."""
        replies = []
        for message in messages:
            line, found = self.asked(message)
            if len(found) != bindings:
                sys.exit(f"{message}: not {bindings} bindings")
            replies.append(line)
        lines, turns = list(map(line_of, messages)), LINES // len(messages)
        taken = self.seconds(lines * turns, replies * turns)
        print(f"  {what}: {turns * len(lines) / taken:,.0f} lines a second")

    def walk(self, instances):
        """Measures a whole walk by GetNext, after one that finds its names."""
        messages, replies, tag = [f"next {COMMUNITY} 0.0"], [], None
        while tag != EMPTY["endOfMibView"]:
            line, ((name, tag),) = self.asked(messages[-1])
            replies.append(line)
            messages.append(f"next {COMMUNITY} {dotted(name)}")
        if len(replies) != instances + 1:
            sys.exit(f"a walk over {len(replies) - 1} instances and not {instances}")
        lines = list(map(line_of, messages[:-1]))
        print(f"  whole walk by GetNext: {1 / self.seconds(lines, replies):,.1f} walks a second")


def static_set(rows, status):
    """A Set that makes so many static rows, by status 3, or removes them, by 2."""
    return f"set {COMMUNITY} " + ", ".join(f"dot1dStaticStatus.2.0.0.9.0.{row}.0 INTEGER {status}" for row in range(rows))


def line_of(message):
    """The line of a request."""
    return f"request {message_of(message).hex()}\n".encode()


def measure_all(agent, rows):
    """What is measured where all of the bridge is seen."""
    learned, count = row_of(rows // 2), "dot1dStpTxHoldCount.0 INTEGER"
    agent.measure("Get of a scalar", 1, f"get {COMMUNITY} dot1dBaseNumPorts.0")
    agent.measure("Get of a port's state", 1, f"get {COMMUNITY} dot1dStpPortState.1")
    agent.measure("Get of a learned row", 1, f"get {COMMUNITY} {learned}")
    agent.measure("GetNext of a port's state", 1, f"next {COMMUNITY} dot1dStpPortState.1")
    agent.measure("GetNext of a learned row", 1, f"next {COMMUNITY} {learned}")
    agent.measure("GetBulk of 20 from the first scalar", 20, f"bulk {COMMUNITY} 0 20 {BRIDGE}.1")
    agent.measure("GetBulk of 20 learned rows", 20, f"bulk {COMMUNITY} 0 20 {BRIDGE}.4.3")
    # Of 60 names 60 successors of 16 octets fit, and then 26 of 18.
    agent.measure("GetBulk of 60 names, 2147483647 repetitions", 86, f"bulk {COMMUNITY} 0 2147483647 60 x dot1dBaseNumPorts.0")
    agent.measure("Set that changes nothing", 1, f"set {COMMUNITY} {count} 6")
    agent.measure("two Sets that change a setting", 1, f"set {COMMUNITY} {count} 5", f"set {COMMUNITY} {count} 6")
    agent.measure("two Sets that make and remove a static row", 1, static_set(1, 3), static_set(1, 2))
    # As many as a reply holds.
    agent.measure("two Sets that make and remove 59 static rows", 59, static_set(59, 3), static_set(59, 2))
    agent.measure("Set of 64 variables", 64, f"set {COMMUNITY} 64 x {count} 6")


def measure_scene(program, folder, ports, rows, families):
    """Measures an agent of so many ports, that has learned so many rows, of which these families are seen."""
    file = folder / "bench.toml"
    file.write_text(configuration(ports, families))
    print(f"{ports} ports, {rows} learned rows, {'all' if families is ALL else 'a part'} is seen")
    with Agent(program, file) as agent:
        agent.learn(ports, rows)
        instances = SCALARS + PORT_COLUMNS * ports
        if families is ALL:
            measure_all(agent, rows)
            instances += ROW_COLUMNS * rows
        elif families is PAST_ROWS:
            # Of 100 successors of 18 octets 80 fit.
            agent.measure("GetBulk of 20 past the rows", 20, f"bulk {COMMUNITY} 0 20 dot1dTpAgingTime.0")
            agent.measure("GetBulk of 100 names past the rows", 80, f"bulk {COMMUNITY} 0 1 100 x dot1dTpAgingTime.0")
        else:
            # Of 100 successors of 28 octets 51 fit.
            instances = ROW_COLUMNS
            agent.measure("GetNext to the row", 1, f"next {COMMUNITY} dot1dBaseNumPorts.0")
            agent.measure("GetBulk of 100 names to the row", 51, f"bulk {COMMUNITY} 0 1 100 x dot1dBaseNumPorts.0")
        agent.walk(instances)


def main():
    program = sys.argv[1]
    with tempfile.TemporaryDirectory() as folder:
        for ports, rows, families in SCENES:
            measure_scene(program, pathlib.Path(folder), ports, rows, families)


if __name__ == "__main__":
    main()
