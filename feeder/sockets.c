#include "port.h"

#include <errno.h>
#include <fcntl.h>
#include <linux/if_ether.h>
#include <linux/if_packet.h>
#include <net/if.h>
#include <net/if_arp.h>
#include <string.h>
#include <sys/time.h>
#include <unistd.h>

#ifndef PACKET_IGNORE_OUTGOING
#define PACKET_IGNORE_OUTGOING 23
#endif

enum { NO_INTERFACE = 100000, NO_ETHERNET }; // beside the system's errors

static const char *reason(int error) {
    if (error == NO_INTERFACE) return "no interface with this name";
    return error == NO_ETHERNET ? "it is no Ethernet interface" : strerror(error);
}

// Sets an option that is a number. Gives what setsockopt gives.
static int set(int socket, int level, int option, int value) {
    return setsockopt(socket, level, option, &value, sizeof value);
}

// Has a socket hold as much as it is to, or as the system allows, and wait for a while at most.
static void set_buffer(int socket) {
    struct timeval pause = {.tv_sec = PAUSE};
    if (set(socket, SOL_SOCKET, SO_RCVBUFFORCE, BUFFER)) set(socket, SOL_SOCKET, SO_RCVBUF, BUFFER);
    setsockopt(socket, SOL_SOCKET, SO_RCVTIMEO, &pause, sizeof pause);
}

// Sets up a raw socket for an interface. Gives 0, or an error.
static int set_up_wire(int wire, int index) {
    struct packet_mreq promiscuous = {.mr_ifindex = index, .mr_type = PACKET_MR_PROMISC};
    struct sockaddr_ll place = {.sll_family = AF_PACKET, .sll_protocol = htons(ETH_P_ALL), .sll_ifindex = index};
    socklen_t size = sizeof place;
    if (set(wire, SOL_PACKET, PACKET_AUXDATA, 1) || set(wire, SOL_PACKET, PACKET_VNET_HDR, 1)) return errno;
    // Where the system is too old for it, the type of each frame says the same.
    set(wire, SOL_PACKET, PACKET_IGNORE_OUTGOING, 1);
    set_buffer(wire);
    if (setsockopt(wire, SOL_PACKET, PACKET_ADD_MEMBERSHIP, &promiscuous, sizeof promiscuous)) return errno;
    if (bind(wire, (struct sockaddr *)&place, sizeof place) || getsockname(wire, (struct sockaddr *)&place, &size)) return errno;
    return place.sll_hatype == ARPHRD_ETHER ? 0 : NO_ETHERNET;
}

// Opens a raw socket of an interface in promiscuous mode. Gives 0, or an error.
static int open_wire(const char *interface, int *wire, int *index) {
    // It receives nothing before it is bound: protocol 0.
    *wire = socket(AF_PACKET, SOCK_RAW | SOCK_CLOEXEC, 0);
    if (*wire < 0) return errno;
    *index = (int)if_nametoindex(interface);
    int error = *index ? set_up_wire(*wire, *index) : NO_INTERFACE;
    if (error) close(*wire);
    return error;
}

// Opens a socket at `peer`. Gives 0, or an error.
static int open_agent(const struct address *peer, int *agent) {
    *agent = socket(peer->any.sa_family, SOCK_DGRAM | SOCK_CLOEXEC, 0);
    if (*agent < 0) return errno;
    set(*agent, SOL_SOCKET, SO_RXQ_OVFL, 1);
    set_buffer(*agent);
    if (!bind(*agent, &peer->any, peer->size)) return 0;
    int error = errno;
    close(*agent);
    return error;
}

void open_port(struct port *port) {
    char text[SHOWN];
    int index;
    int error = open_wire(port->interface, &port->wire, &index);
    if (error == EPERM || error == EACCES) {
        fail(1, "%s: no right to open raw sockets: be root, or have CAP_NET_RAW", port->interface);
    }
    if (error) fail(1, "%s: %s", port->interface, reason(error));
    atomic_store(&port->index, index);
    // It receives nothing: protocol 0. Each frame has the number of the interface that it goes out by.
    port->outlet = socket(AF_PACKET, SOCK_RAW | SOCK_CLOEXEC, 0);
    if (port->outlet < 0) fail(1, "%s: %s", port->interface, strerror(errno));
    error = open_agent(&port->peer, &port->agent);
    if (error) fail(1, "%s: peer %s: %s", port->interface, shown(&port->peer, text), strerror(error));
}

void renew(struct port *port) {
    int wire, index = (int)if_nametoindex(port->interface);
    if (!index || index == atomic_load(&port->index) || open_wire(port->interface, &wire, &index)) return;
    close(port->wire);
    port->wire = wire;
    atomic_store(&port->index, index);
    log_line("%s is open again", port->interface);
}

void count_behind(struct port *port) {
    struct tpacket_stats found;
    socklen_t size = sizeof found;
    if (!getsockopt(port->wire, SOL_PACKET, PACKET_STATISTICS, &found, &size)) count(port, BEHIND, found.tp_drops);
}
