"""Runs the agent over 20,000 and 200,000 request lines: lines a second, and the peak of its resident memory."""

import subprocess
import sys
import threading
import time

REQUEST = b"request 302702010104067075626C6963A01A020101020100020100300F300D06092B06010201110102000500\n"
REPLY = b"reply 302802010104067075626C6963A21B0201010201000201003010300E06092B0601020111010200020102\n"


def peak_kilobytes(process):
    """The peak of the resident memory of a running process, in kilobytes."""
    with open(f"/proc/{process.pid}/status") as status:
        for line in status:
            if line.startswith("VmHWM:"):
                return int(line.split()[1])
    sys.exit("no peak of resident memory in /proc")


def feed(process, lines):
    """Writes the lines; the end of the input comes later."""
    process.stdin.write(REQUEST * lines)
    process.stdin.flush()


def measure(program, lines):
    """Seconds and peak resident kilobytes of one run; each line of the output is compared."""
    process = subprocess.Popen([program], stdin=subprocess.PIPE, stdout=subprocess.PIPE)
    start = time.monotonic()
    writer = threading.Thread(target=feed, args=(process, lines))
    writer.start()
    output = process.stdout.read(len(REPLY) * lines)
    seconds = time.monotonic() - start
    writer.join()
    kilobytes = peak_kilobytes(process)
    process.stdin.close()
    rest = process.stdout.read()
    if process.wait() != 0 or output != REPLY * lines or rest:
        sys.exit(f"{program}: a wrong answer")
    return seconds, kilobytes


def main():
    program = sys.argv[1]
    for lines in (20_000, 200_000):
        seconds, kilobytes = measure(program, lines)
        print(f"script of {lines} request lines: {lines / seconds:,.0f} lines a second, peak resident memory {kilobytes} kB")


main()
