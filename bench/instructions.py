#!/usr/bin/env python3
"""Counts the instructions that agentd takes for a line of a script with a request, by valgrind's callgrind.

    bench/instructions.py [--agentd FILE]

The bridge has 2 ports that forward and 10 learned rows, and all of it is seen. Each request is run over 1,100 lines and over 100: a line
takes the difference, divided by 1,000, its request and its reply in hexadecimal included. A whole walk by GetNext is run 11 times and
once, and what it takes is divided by its lines. Such a count does not depend on what else the machine does. Exit status 1 where the agent failed or a reply has an error.

The agent is that which `rt run` leaves in crates/agentd/out/agentd. Debian's package valgrind is needed.
"""

import argparse
import pathlib
import re
import subprocess
import sys
import tempfile

sys.dont_write_bytecode = True
import requests

sys.path.insert(0, str(requests.ROOT / "tools"))
from messages import EMPTY, dotted, response_in

MANY, FEW = 1_100, 100  # lines of the two runs
WALKS = 11  # of the longer of two runs
PORTS, ROWS = 2, 10
STP = f"{requests.BRIDGE}.2"
COLUMNS = ", ".join(f"{STP}.15.1.{column}" for column in range(1, 11))
MESSAGES = {
    "Get of a port's state": "get public dot1dStpPortState.1",
    "GetNext of a port's state": "next public dot1dStpPortState.1",
    "GetBulk of 20 from dot1dStp": f"bulk public 0 20 {STP}",
    "GetBulk of 10 columns of dot1dStpPortTable, 2 repetitions": f"bulk public 0 2 {COLUMNS}",
    "GetBulk of 20 learned rows": f"bulk public 0 20 {requests.BRIDGE}.4.3",
    "Set that changes nothing": "set public dot1dStpTxHoldCount.0 INTEGER 6",
}


def opening():
    """The lines by which all ports forward and the rows are learned."""
    links = "".join(f"link {port} up\n" for port in range(1, PORTS + 1))
    frames = "".join(f"frame 1 FFFFFFFFFFFF{requests.station(number).hex()}0800\n" for number in range(ROWS))
    return f"{links}tick 30\n{frames}".encode()


def count(program, folder, lines):
    """The instructions of a run over these lines, the last reply to which has no error."""
    words = ["valgrind", "--tool=callgrind", f"--callgrind-out-file={folder / 'callgrind.out'}", program, "script", "--config"]
    run = subprocess.run([*words, folder / "bench.toml"], input=opening() + lines, capture_output=True)
    reply = run.stdout.decode().splitlines()[-1]
    if run.returncode != 0 or response_in(bytes.fromhex(reply.removeprefix("reply ")))[0] != "noError":
        sys.exit("the agent failed")
    return int(re.search(rb"Collected : (\d+)", run.stderr)[1])


def walk(program, folder):
    """The lines of a whole walk by GetNext."""
    lines, message, tag = [], "next public 0.0", None
    with requests.Agent(program, folder / "bench.toml") as agent:
        agent.write(opening())
        for _ in range(ROWS):
            agent.line()
        while tag != EMPTY["endOfMibView"]:
            lines.append(requests.line_of(message))
            _, ((name, tag),) = agent.asked(message)
            message = f"next public {dotted(name)}"
    return lines


def main():
    parser = argparse.ArgumentParser()
    parser.add_argument("--agentd", default=requests.ROOT / "crates" / "agentd" / "out" / "agentd")
    program = parser.parse_args().agentd
    with tempfile.TemporaryDirectory() as name:
        folder = pathlib.Path(name)
        (folder / "bench.toml").write_text(requests.configuration(PORTS, requests.ALL))
        for what, message in MESSAGES.items():
            line = requests.line_of(message)
            taken = count(program, folder, line * MANY) - count(program, folder, line * FEW)
            print(f"{what}: {taken / (MANY - FEW):,.0f}")
        lines = walk(program, folder)
        taken = count(program, folder, b"".join(lines * WALKS)) - count(program, folder, b"".join(lines))
        print(f"whole walk by GetNext, a line: {taken / (WALKS - 1) / len(lines):,.0f}")


if __name__ == "__main__":
    main()
