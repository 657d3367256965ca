"""The spanning tree that a network has by its identifiers and costs alone (IEEE 802.1D-2004, 17.5, 17.6), for the tools beside this file.

No bridge is asked for it. Identifiers are numbers: a bridge's is its priority and its address, a port's its priority and its number.
"""

import dataclasses

MOST = 0x7FFFFFFF  # the greatest cost that an object shows

DISABLED, ROOT, DESIGNATED, ALTERNATE, BACKUP = "disabled", "root", "designated", "alternate", "backup"


@dataclasses.dataclass(frozen=True)
class Port:
    """A port: its number and its identifier, the cost of its path, and its LAN, which is None where it is off."""

    number: int
    identifier: int
    cost: int
    lan: str | None


@dataclasses.dataclass(frozen=True)
class Place:
    """What a bridge is in the tree: its root, the cost of its path there, its root port (0 where it is the root itself), and of each port
    the role and the vector of its LAN's designated port: root, cost, bridge and port."""

    root: int
    cost: int
    root_port: int
    roles: dict
    vectors: dict


def designated(ports, vectors):
    """The best of what the bridges on each LAN would send there: root, cost, bridge and port."""
    best = {}
    for identifier, own in ports.items():
        root, cost = vectors[identifier]
        for port in own:
            if port.lan is not None:
                vector = (root, cost, identifier, port.identifier)
                best[port.lan] = min(best.get(port.lan, vector), vector)
    return best


def best_path(identifier, ports, best):
    """The best way to a root: root, cost, and behind them the sender's bridge and port, the receiving port's identifier and its number.
    Where no port has a better one, it is the bridge's own."""
    own = (identifier, 0, identifier, 0, 0, 0)
    paths = ((root, cost + port.cost, bridge, sender, port.identifier, port.number)
             for port in ports if port.lan is not None
             for root, cost, bridge, sender in [best[port.lan]] if bridge != identifier)
    return min([own, *paths])


def tree_of(ports):
    """The places of all bridges, by their identifiers; `ports` has the ports of each. A vector gets better from pass to pass until none
    does: as many passes as bridges suffice, since each bridge then has its best path of so many hops."""
    vectors = {identifier: (identifier, 0) for identifier in ports}
    for _ in ports:
        best = designated(ports, vectors)
        vectors = {identifier: best_path(identifier, own, best)[:2] for identifier, own in ports.items()}
    best = designated(ports, vectors)
    return {identifier: place_of(identifier, own, best) for identifier, own in ports.items()}


def place_of(identifier, ports, best):
    """The place of a bridge, where the designated vectors of all LANs are known."""
    root, cost, *_, root_port = best_path(identifier, ports, best)
    roles, vectors = {}, {}
    for port in ports:
        own = (root, cost, identifier, port.identifier)
        roles[port.number] = role_of(port, identifier, root_port, own, best)
        vectors[port.number] = own if port.lan is None else best[port.lan]
    return Place(root, cost, root_port, roles, vectors)


def role_of(port, identifier, root_port, own, best):
    """The role of a port (17.7)."""
    if port.lan is None:
        return DISABLED
    if port.number == root_port:
        return ROOT
    if best[port.lan] == own:
        return DESIGNATED
    return BACKUP if best[port.lan][2] == identifier else ALTERNATE
