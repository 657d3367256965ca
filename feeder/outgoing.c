// From the agent to an interface.

#include "frames.h"
#include "port.h"
#include "sending.h"

#include <errno.h>
#include <linux/if_packet.h>
#include <stdalign.h>
#include <stdint.h>
#include <string.h>
#include <unistd.h>

enum {
    BATCH = 64,          // datagrams that are received by one call
    OCTETS = LONGEST + 1 // of a datagram: one more than the longest frame has, by which longer ones are seen
};

struct received {
    unsigned char octets[OCTETS];
    struct address source;
    struct iovec part;
    alignas(struct cmsghdr) unsigned char control[CMSG_SPACE(sizeof(uint32_t))];
};

struct outgoing {
    struct port *port;
    uint32_t overflow; // datagrams that the system dropped, as it last gave their number
    struct sockaddr_ll place;
    struct received received[BATCH];
    struct iovec parts[BATCH];
    struct mmsghdr batch[BATCH], messages[BATCH];
    size_t message_count;
};

// Counts what the system dropped of the agent's datagrams since the one before.
static void count_overflow(struct outgoing *outgoing, struct msghdr *message) {
    struct cmsghdr *head = CMSG_FIRSTHDR(message);
    uint32_t overflow;
    if (!head || head->cmsg_level != SOL_SOCKET || head->cmsg_type != SO_RXQ_OVFL) return;
    memcpy(&overflow, CMSG_DATA(head), sizeof overflow);
    if (overflow == outgoing->overflow) return;
    count(outgoing->port, BEHIND, overflow - outgoing->overflow);
    outgoing->overflow = overflow;
}

// Whether the agent sends from this host.
static bool is_agent(const struct port *port, const struct address *source) {
    for (size_t i = 0; i < port->sender_count; i++) {
        if (is_same_host(&port->senders[i], source)) return true;
    }
    return false;
}

// Takes a datagram of the batch, to be sent by the interface.
static void take_datagram(struct outgoing *outgoing, struct received *received, struct mmsghdr *message) {
    struct port *port = outgoing->port;
    size_t length = message->msg_len;
    count_overflow(outgoing, &message->msg_hdr);
    if (!is_agent(port, &received->source)) {
        count(port, STRANGE, 1);
    } else if (length > LONGEST || message->msg_hdr.msg_flags & MSG_TRUNC) {
        count(port, LONG, 1);
    } else if (length < SHORTEST) {
        count(port, SHORT, 1);
    } else {
        outgoing->parts[outgoing->message_count] = (struct iovec){received->octets, length};
        outgoing->messages[outgoing->message_count].msg_hdr = (struct msghdr){
            .msg_name = &outgoing->place,
            .msg_namelen = sizeof outgoing->place,
            .msg_iov = &outgoing->parts[outgoing->message_count],
            .msg_iovlen = 1,
        };
        outgoing->message_count++;
    }
}

static void frame_sent(void *of, size_t message, int error) {
    struct outgoing *outgoing = of;
    (void)message;
    count(outgoing->port, error ? FAILED : OUT, 1);
}

// Makes a message ready to be received into.
static void make_ready(struct received *received, struct msghdr *message) {
    received->part = (struct iovec){received->octets, OCTETS};
    *message = (struct msghdr){
        .msg_name = &received->source.any,
        .msg_namelen = sizeof(struct sockaddr_in6),
        .msg_iov = &received->part,
        .msg_iovlen = 1,
        .msg_control = received->control,
        .msg_controllen = sizeof received->control,
    };
}

// Carries what there is, and waits for it for a while.
static void carry_batch(struct outgoing *outgoing) {
    struct port *port = outgoing->port;
    int found = recvmmsg(port->agent, outgoing->batch, BATCH, MSG_WAITFORONE, NULL);
    if (found < 0) {
        if (errno == EAGAIN || errno == EWOULDBLOCK || errno == EINTR) return;
        count(port, FAILED, 1);
        usleep(1000);
        return;
    }
    outgoing->place.sll_ifindex = atomic_load(&port->index);
    outgoing->message_count = 0;
    for (int i = 0; i < found; i++) take_datagram(outgoing, &outgoing->received[i], &outgoing->batch[i]);
    send_all(port->outlet, outgoing->messages, outgoing->message_count, frame_sent, outgoing);
    for (int i = 0; i < found; i++) make_ready(&outgoing->received[i], &outgoing->batch[i].msg_hdr);
}

void *carry_out(void *port) {
    struct outgoing *outgoing = memory(sizeof *outgoing);
    outgoing->port = port;
    outgoing->place.sll_family = AF_PACKET;
    for (int i = 0; i < BATCH; i++) make_ready(&outgoing->received[i], &outgoing->batch[i].msg_hdr);
    while (true) carry_batch(outgoing);
    return NULL;
}
