"""Network namespaces, cables between them and programs in them, for the tools beside this file; all is taken away at the end.

    with Spaces() as spaces:
        one, other = spaces.space("one"), spaces.space("other")
        spaces.cable(one, "left", other, "right")
        spaces.start(one, "program", "word")
"""

import contextlib
import ctypes
import os
import pathlib
import shutil
import signal
import subprocess
import sys
import tempfile

CLONE_NEWNET = 0x40000000
LONGEST = 60  # seconds until a program counts as hung


class Failed(Exception):
    """What a program of the system did not do, in its own words."""


def run(*words, env=None):
    """What a program of the system writes, which is to end well."""
    try:
        done = subprocess.run(words, stdin=subprocess.DEVNULL, capture_output=True, text=True, timeout=LONGEST, env=env)
    except (OSError, subprocess.TimeoutExpired) as error:
        raise Failed(f"{words[0]}: {error}") from None
    if done.returncode:
        raise Failed(f"{' '.join(map(str, words))}: {(done.stderr or done.stdout).strip()}")
    return done.stdout


def set_space(file):
    """Puts this thread into the network namespace of an open file."""
    library = ctypes.CDLL(None, use_errno=True)
    if library.setns(file.fileno(), CLONE_NEWNET):
        error = ctypes.get_errno()
        raise OSError(error, os.strerror(error))


@contextlib.contextmanager
def inside(space):
    """What the block opens, it opens in this namespace."""
    with open("/proc/thread-self/ns/net") as own, open(f"/run/netns/{space}") as other:
        set_space(other)
        try:
            yield
        finally:
            set_space(own)


class Spaces:
    """Namespaces of this run, and what runs in them; a folder for files."""

    def __init__(self):
        self.made = contextlib.ExitStack()
        self.count = 0

    def __enter__(self):
        self.folder = pathlib.Path(self.made.enter_context(tempfile.TemporaryDirectory(prefix="agentd-lab-")))
        return self

    def __exit__(self, *_):
        self.made.close()

    def space(self, name):
        """A namespace with its loopback alone. IPv6 is off, so that nothing is sent but by what runs in it."""
        space = f"agentd-lab-{os.getpid()}-{self.count}-{name}"
        self.count += 1
        self.made.callback(delete, space)
        run("ip", "netns", "add", space)
        run("ip", "-n", space, "link", "set", "lo", "up")
        with inside(space), contextlib.suppress(OSError):
            for which in "all", "default":
                pathlib.Path(f"/proc/sys/net/ipv6/conf/{which}/disable_ipv6").write_text("1")
        return space

    def cable(self, space, name, other, other_name):
        """A cable between two interfaces, both up."""
        run("ip", "-n", space, "link", "add", name, "type", "veth", "peer", "name", other_name, "netns", other)
        for where, which in (space, name), (other, other_name):
            run("ip", "-n", where, "link", "set", which, "up")

    def start(self, space, *words, env=None):
        """A program in a namespace, which is killed at the end; its standard error is to be read."""
        words = ["ip", "netns", "exec", space, *words]
        process = subprocess.Popen(words, stdin=subprocess.DEVNULL, stdout=subprocess.DEVNULL, stderr=subprocess.PIPE, text=True,
                                   start_new_session=True, env=env)
        self.made.callback(end, process)
        return process


def delete(space):
    """Takes a namespace away, with its interfaces."""
    subprocess.run(["ip", "netns", "del", space], stdin=subprocess.DEVNULL, capture_output=True)


def end(process):
    """Kills a program, and waits for its end."""
    process.kill()
    process.wait()
    process.stderr.close()


def lacking():
    """Why what needs namespaces and the feeder's test cannot be tried here, or nothing."""
    if sys.version_info < (3, 11):
        return "python3 is older than 3.11"
    if os.geteuid():
        return "this is not root"
    if not shutil.which("ip"):
        return "there is no ip (iproute2)"
    try:
        with Spaces() as spaces:
            one, other = spaces.space("one"), spaces.space("other")
            spaces.cable(one, "left", other, "right")
            run("ip", "netns", "exec", one, "true")
            with inside(other):
                pass
    except (Failed, OSError) as error:
        return f"there are no network namespaces ({error})"
    return None


def end_well():
    """Lets a signal end this program once, as sys.exit does, so that all is taken away."""
    signals = (signal.SIGINT, signal.SIGTERM, signal.SIGHUP)

    def ended(number, _):
        for one in signals:
            signal.signal(one, signal.SIG_IGN)
        print(f"ended by {signal.Signals(number).name}", file=sys.stderr)
        sys.exit(128 + number)

    for one in signals:
        signal.signal(one, ended)
