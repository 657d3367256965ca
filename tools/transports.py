"""TCP and UDP between hosts, each in a network namespace of its own, for the tools beside this file."""

import random
import socket
import sys
import threading

sys.dont_write_bytecode = True
import namespaces

SOL_UDP, UDP_SEGMENT = 17, 103  # of linux/udp.h
STREAM = 3_000_000  # octets
DATAGRAMS = 200
PATIENCE = 20  # seconds until what was sent counts as lost


def opened(place, kind):
    """A socket of a host, at its address; the place is the host's namespace and that address."""
    space, address = place
    with namespaces.inside(space):
        own = socket.socket(socket.AF_INET6 if ":" in address else socket.AF_INET, kind)
    own.settimeout(PATIENCE)
    own.bind((address, 0))
    return own


def stream_arrives(one, other):
    """Whether a stream of TCP from a host to another arrives as it was sent."""
    octets = random.Random(1).randbytes(STREAM)
    with opened(other, socket.SOCK_STREAM) as listener, opened(one, socket.SOCK_STREAM) as sender:
        listener.listen()
        sender.connect(listener.getsockname())
        receiver, _ = listener.accept()
        with receiver:
            receiver.settimeout(PATIENCE)
            threading.Thread(target=lambda: (sender.sendall(octets), sender.shutdown(socket.SHUT_WR)), daemon=True).start()
            return b"".join(iter(lambda: receiver.recv(1 << 16), b"")) == octets


def datagrams_arrive(one, other):
    """Whether datagrams of UDP from a host to another arrive: such of many lengths, and such that leave as one."""
    with opened(other, socket.SOCK_DGRAM) as receiver, opened(one, socket.SOCK_DGRAM) as sender:
        for number in range(DATAGRAMS):
            octets = bytes([number]) * (1 + 7 * number)
            sender.sendto(octets, receiver.getsockname())
            if receiver.recv(65535) != octets:
                return False
        sender.setsockopt(SOL_UDP, UDP_SEGMENT, 1000)
        sender.sendto(bytes(10_500), receiver.getsockname())
        return [len(receiver.recv(65535)) for _ in range(11)] == [1000] * 10 + [500]
