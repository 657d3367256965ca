// From an interface to the agent.

#include "frames.h"
#include "port.h"
#include "sending.h"

#include <errno.h>
#include <linux/if_ether.h>
#include <linux/if_packet.h>
#include <linux/udp.h>
#include <stdalign.h>
#include <string.h>
#include <unistd.h>

enum {
    BATCH = 32,              // frames that are received by one call
    OCTETS = 65536 + 256,    // of the longest frame that the system gives: of one that it joined
    PIECES = 512,            // frames that are sent by one call,
    TOGETHER = 64,           // as pieces of as many datagrams of one length,
    MOST_TOGETHER = 65000,   // with so many octets at most
    MOST_ERRORS = 100        // in a row, before it rests
};

// What a batch of frames was received into.
struct received {
    unsigned char space[TAG_OCTETS], octets[OCTETS];
    struct virtio_net_hdr offload;
    struct sockaddr_ll source;
    struct iovec parts[2];
    alignas(struct cmsghdr) unsigned char control[CMSG_SPACE(sizeof(struct tpacket_auxdata))];
};

// Pieces that are sent as one datagram each; the system cuts them where they are of one length.
struct group {
    size_t first, count;
    alignas(struct cmsghdr) unsigned char control[CMSG_SPACE(sizeof(uint16_t))];
};

struct incoming {
    struct port *port;
    struct received received[BATCH];
    struct mmsghdr batch[BATCH];
    size_t piece_count, part_count;
    struct iovec parts[2 * PIECES];
    size_t first_part[PIECES + 1], length[PIECES];
    unsigned char headers[PIECES][MOST_HEADERS];
    struct group groups[PIECES];
    struct mmsghdr messages[PIECES];
};

// Adds up pieces from one on that the system can cut from one datagram: of one length, the last of that or a shorter one.
static size_t together(const struct incoming *incoming, size_t first) {
    if (incoming->port->sends_single) return 1;
    size_t size = incoming->length[first], octets = size, count = 1;
    for (size_t i = first + 1; i < incoming->piece_count && count < TOGETHER; i++, count++) {
        size_t length = incoming->length[i];
        octets += length;
        if (length > size || octets > MOST_TOGETHER || incoming->length[i - 1] < size) break;
    }
    return count;
}

// Makes the message of a group of pieces.
static void make_message(struct incoming *incoming, struct group *group, struct msghdr *message) {
    size_t part = incoming->first_part[group->first], end = incoming->first_part[group->first + group->count];
    *message = (struct msghdr){
        .msg_name = &incoming->port->listen.any,
        .msg_namelen = incoming->port->listen.size,
        .msg_iov = incoming->parts + part,
        .msg_iovlen = end - part,
    };
    if (group->count == 1) return;
    message->msg_control = group->control;
    message->msg_controllen = sizeof group->control;
    struct cmsghdr *head = CMSG_FIRSTHDR(message);
    *head = (struct cmsghdr){.cmsg_level = IPPROTO_UDP, .cmsg_type = UDP_SEGMENT, .cmsg_len = CMSG_LEN(sizeof(uint16_t))};
    uint16_t size = (uint16_t)incoming->length[group->first];
    memcpy(CMSG_DATA(head), &size, sizeof size);
}

// Sends the pieces of a group one by one.
static void send_single(struct incoming *incoming, const struct group *group) {
    struct port *port = incoming->port;
    for (size_t i = group->first; i < group->first + group->count; i++) {
        struct msghdr message = {
            .msg_name = &port->listen.any,
            .msg_namelen = port->listen.size,
            .msg_iov = incoming->parts + incoming->first_part[i],
            .msg_iovlen = incoming->first_part[i + 1] - incoming->first_part[i],
        };
        count(port, sendmsg(port->agent, &message, 0) < 0 ? FAILED : IN, 1);
    }
}

// Counts what became of a group; one that the system did not cut is sent again by its pieces, and so are all from then on.
static void group_sent(void *of, size_t message, int error) {
    struct incoming *incoming = of;
    const struct group *group = &incoming->groups[message];
    if (group->count > 1 && (error == EINVAL || error == EIO || error == EMSGSIZE || error == EOPNOTSUPP || error == ENOPROTOOPT)) {
        incoming->port->sends_single = true;
        send_single(incoming, group);
    } else {
        count(incoming->port, error ? FAILED : IN, group->count);
    }
}

// Sends all pieces to the agent.
static void send_pieces(struct incoming *incoming) {
    size_t groups = 0;
    incoming->first_part[incoming->piece_count] = incoming->part_count;
    for (size_t first = 0; first < incoming->piece_count; groups++) {
        struct group *group = &incoming->groups[groups];
        group->first = first;
        group->count = together(incoming, first);
        make_message(incoming, group, &incoming->messages[groups].msg_hdr);
        first += group->count;
    }
    send_all(incoming->port->agent, incoming->messages, groups, group_sent, incoming);
    incoming->piece_count = incoming->part_count = 0;
}

// Whether a frame is of a length that is carried; else it is counted.
static bool is_carried(struct port *port, size_t length) {
    if (length >= SHORTEST && length <= LONGEST) return true;
    count(port, length > LONGEST ? LONG : SHORT, 1);
    return false;
}

// Adds the last parts as a piece.
static void add_piece(struct incoming *incoming, size_t part_count, size_t length) {
    if (!is_carried(incoming->port, length)) return;
    incoming->first_part[incoming->piece_count] = incoming->part_count;
    incoming->length[incoming->piece_count++] = length;
    incoming->part_count += part_count;
    if (incoming->piece_count == PIECES) send_pieces(incoming);
}

// Counts a joined frame that cannot be cut, and at the first of a port says what to switch off.
static void count_joined(struct port *port) {
    count(port, JOINED, 1);
    if (port->is_joined_logged) return;
    port->is_joined_logged = true;
    log_line("%s: joined segments that cannot be cut again are dropped; switch joining off: ethtool -K %s gro off lro off, "
             "and at a virtual interface's other end ethtool -K INTERFACE tso off gso off ufo off", port->interface, port->interface);
}

// Adds a joined frame by its segments.
static void add_segments(struct incoming *incoming, const struct frame *frame) {
    struct cutting cutting;
    if (!begin_cutting(&cutting, frame)) {
        count_joined(incoming->port);
        return;
    }
    while (has_segment(&cutting)) {
        size_t length = next_segment(&cutting, incoming->headers[incoming->piece_count], incoming->parts + incoming->part_count);
        add_piece(incoming, 2, length);
    }
}

// Adds a frame as it is to stand on a wire.
static void add_frame(struct incoming *incoming, struct frame *frame) {
    if (is_joined(frame)) {
        add_segments(incoming, frame);
    } else if (frame->length > LONGEST || frame->length < SHORTEST) {
        is_carried(incoming->port, frame->length);
    } else if (!finish_checksum(frame)) {
        count(incoming->port, UNFINISHED, 1);
    } else {
        incoming->parts[incoming->part_count] = (struct iovec){frame->octets, frame->length};
        add_piece(incoming, 1, frame->length);
    }
}

// Inserts the tag that the system took out of a frame, if it did.
static void restore_tag(struct frame *frame, struct msghdr *message) {
    struct cmsghdr *head = CMSG_FIRSTHDR(message);
    struct tpacket_auxdata found;
    if (!head || head->cmsg_level != SOL_PACKET || head->cmsg_type != PACKET_AUXDATA || head->cmsg_len < CMSG_LEN(sizeof found)) return;
    memcpy(&found, CMSG_DATA(head), sizeof found);
    if (!(found.tp_status & TP_STATUS_VLAN_VALID)) return;
    insert_tag(frame, found.tp_status & TP_STATUS_VLAN_TPID_VALID ? found.tp_vlan_tpid : ETH_P_8021Q, found.tp_vlan_tci);
}

// Takes a frame of the batch: what was received, and not what was sent by the interface.
static void take_frame(struct incoming *incoming, struct received *received, struct mmsghdr *message) {
    int type = received->source.sll_pkttype;
    size_t length = message->msg_len;
    if (type == PACKET_OUTGOING || type == PACKET_LOOPBACK || length < sizeof received->offload) return;
    struct frame frame = {received->octets, length - sizeof received->offload, received->offload};
    if (message->msg_hdr.msg_flags & MSG_TRUNC) {
        if (is_joined(&frame)) count_joined(incoming->port);
        else count(incoming->port, LONG, 1);
        return;
    }
    if (frame.length >= SHORTEST) restore_tag(&frame, &message->msg_hdr);
    add_frame(incoming, &frame);
}

// Makes a message ready to be received into.
static void make_ready(struct received *received, struct msghdr *message) {
    received->parts[0] = (struct iovec){&received->offload, sizeof received->offload};
    received->parts[1] = (struct iovec){received->octets, OCTETS};
    *message = (struct msghdr){
        .msg_name = &received->source,
        .msg_namelen = sizeof received->source,
        .msg_iov = received->parts,
        .msg_iovlen = 2,
        .msg_control = received->control,
        .msg_controllen = sizeof received->control,
    };
}

// Counts an error of the socket; a frame that the system cannot describe is a joined one, and is gone. Gives the errors in a row.
static int receive_failed(struct port *port, int error, int errors) {
    if (error == EAGAIN || error == EWOULDBLOCK || error == EINTR) return 0;
    if (error == EINVAL) count_joined(port);
    else count(port, FAILED, 1);
    if (errors >= MOST_ERRORS) sleep(PAUSE);
    return errors + 1;
}

// Carries what there is, and waits for it for a while.
static int carry_batch(struct incoming *incoming, int errors) {
    int found = recvmmsg(incoming->port->wire, incoming->batch, BATCH, MSG_WAITFORONE, NULL);
    if (found < 0) return receive_failed(incoming->port, errno, errors);
    for (int i = 0; i < found; i++) {
        take_frame(incoming, &incoming->received[i], &incoming->batch[i]);
    }
    send_pieces(incoming);
    for (int i = 0; i < found; i++) make_ready(&incoming->received[i], &incoming->batch[i].msg_hdr);
    return 0;
}

void *carry_in(void *port) {
    struct incoming *incoming = memory(sizeof *incoming);
    double renewal = now();
    int errors = 0;
    incoming->port = port;
    for (int i = 0; i < BATCH; i++) make_ready(&incoming->received[i], &incoming->batch[i].msg_hdr);
    while (true) {
        errors = carry_batch(incoming, errors);
        if (now() < renewal + PAUSE) continue;
        renewal = now();
        count_behind(port);
        renew(port);
    }
    return NULL;
}
