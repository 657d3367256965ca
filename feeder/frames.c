#include "frames.h"

#include <arpa/inet.h>
#include <linux/if_ether.h>
#include <netinet/in.h>
#include <string.h>

enum {
    ADDRESSES = 12,           // octets of the two addresses of a frame
    MOST_TAGS = 4,            // tags and
    MOST_EXTENSIONS = 8,      // extension headers that are passed over
    LEAST_VERSION_4 = 20,     // octets of a header of IPv4 without options,
    VERSION_6 = 40,           // of IPv6,
    LEAST_TCP = 20, UDP = 8,  // of TCP without options, of UDP
    TCP_CHECKSUM = 16, UDP_CHECKSUM = 6,
    FIN = 0x01, PUSH = 0x08, WINDOW_REDUCED = 0x80,
    FRAGMENT = 0x3FFF         // of the flags and the offset of IPv4: more fragments, or an offset
};

static uint16_t read_two(const unsigned char *octets) {
    return (uint16_t)(octets[0] << 8 | octets[1]);
}

static void write_two(unsigned char *octets, size_t value) {
    octets[0] = (unsigned char)(value >> 8);
    octets[1] = (unsigned char)value;
}

static uint32_t read_four(const unsigned char *octets) {
    return (uint32_t)read_two(octets) << 16 | read_two(octets + 2);
}

static void write_four(unsigned char *octets, uint32_t value) {
    write_two(octets, value >> 16);
    write_two(octets + 2, value & 0xFFFF);
}

// The sum of octets by pairs as they stand in memory, and of what was summed before (RFC 1071). An odd octet is the first of a pair.
static uint64_t summed(uint64_t sum, const unsigned char *octets, size_t length) {
    uint32_t word;
    for (; length >= sizeof word; length -= sizeof word, octets += sizeof word) {
        memcpy(&word, octets, sizeof word);
        sum += word;
    }
    word = 0;
    memcpy(&word, octets, length);
    return sum + word;
}

// Writes the checksum of a sum; 0, which stands for none, is written as its other form.
static void write_checksum(unsigned char *octets, uint64_t sum) {
    while (sum >> 16) sum = (sum & 0xFFFF) + (sum >> 16);
    uint16_t checksum = (uint16_t)~sum;
    if (!checksum) checksum = 0xFFFF;
    memcpy(octets, &checksum, sizeof checksum);
}

void insert_tag(struct frame *frame, uint16_t protocol, uint16_t tag) {
    memmove(frame->octets - TAG_OCTETS, frame->octets, ADDRESSES);
    frame->octets -= TAG_OCTETS;
    frame->length += TAG_OCTETS;
    write_two(frame->octets + ADDRESSES, protocol);
    write_two(frame->octets + ADDRESSES + 2, tag);
    frame->offload.csum_start = (uint16_t)(frame->offload.csum_start + TAG_OCTETS);
}

bool is_joined(const struct frame *frame) {
    return frame->offload.gso_type != VIRTIO_NET_HDR_GSO_NONE;
}

bool finish_checksum(struct frame *frame) {
    if (!(frame->offload.flags & VIRTIO_NET_HDR_F_NEEDS_CSUM)) return true;
    size_t start = frame->offload.csum_start, place = start + frame->offload.csum_offset;
    if (start < SHORTEST || place + 2 > frame->length) return false;
    // In its place stands the sum of what is summed beside the octets.
    write_checksum(frame->octets + place, summed(0, frame->octets + start, frame->length - start));
    return true;
}

// Passes over the tags of a frame. Gives the protocol behind them, 0 where there is none.
static uint16_t pass_tags(struct cutting *cutting) {
    size_t at = ADDRESSES;
    for (int tags = 0; tags <= MOST_TAGS && at + 2 <= cutting->end; tags++, at += TAG_OCTETS) {
        uint16_t protocol = read_two(cutting->octets + at);
        if (protocol != ETH_P_8021Q && protocol != ETH_P_8021AD) {
            cutting->network = at + 2;
            return protocol;
        }
    }
    return 0;
}

// Passes over the extension headers of IPv6. Gives the protocol behind them, or -1 where they do not lead to a transport.
static int pass_extensions(struct cutting *cutting) {
    int protocol = cutting->octets[cutting->network + 6];
    for (int count = 0; count <= MOST_EXTENSIONS; count++) {
        if (protocol != IPPROTO_HOPOPTS && protocol != IPPROTO_ROUTING && protocol != IPPROTO_DSTOPTS) return protocol;
        if (cutting->transport + 8 > cutting->end) return -1;
        const unsigned char *header = cutting->octets + cutting->transport;
        protocol = header[0];
        cutting->transport += 8 * (size_t)(header[1] + 1);
    }
    return -1;
}

// Reads the header of IP. Gives the protocol behind it, or -1 where there is none that can be cut.
static int read_network(struct cutting *cutting, uint16_t protocol) {
    const unsigned char *header = cutting->octets + cutting->network;
    size_t length = cutting->end - cutting->network;
    cutting->is_version_6 = protocol == ETH_P_IPV6;
    if (cutting->is_version_6) {
        if (length < VERSION_6 || header[0] >> 4 != 6) return -1;
        cutting->transport = cutting->network + VERSION_6;
        return pass_extensions(cutting);
    }
    if (protocol != ETH_P_IP || length < LEAST_VERSION_4 || header[0] >> 4 != 4) return -1;
    size_t octets = 4 * (size_t)(header[0] & 15);
    if (octets < LEAST_VERSION_4 || octets > length || read_two(header + 6) & FRAGMENT) return -1;
    cutting->transport = cutting->network + octets;
    return header[9];
}

// Reads the header of TCP or UDP. False where it lies not in the frame, or where all headers are too long.
static bool read_transport(struct cutting *cutting, int protocol) {
    size_t least = protocol == IPPROTO_TCP ? LEAST_TCP : UDP;
    if (cutting->transport + least > cutting->end) return false;
    size_t octets = UDP;
    if (protocol == IPPROTO_TCP) octets = 4 * (size_t)(cutting->octets[cutting->transport + 12] >> 4);
    cutting->is_tcp = protocol == IPPROTO_TCP;
    cutting->payload = cutting->at = cutting->transport + octets;
    return octets >= least && cutting->payload < cutting->end && cutting->payload <= MOST_HEADERS;
}

// Whether the headers are of the kind that the system says, and the checksum stands where theirs does.
static bool is_as_described(const struct cutting *cutting, const struct virtio_net_hdr *offload) {
    int kind = offload->gso_type & ~VIRTIO_NET_HDR_GSO_ECN;
    int tcp = cutting->is_version_6 ? VIRTIO_NET_HDR_GSO_TCPV6 : VIRTIO_NET_HDR_GSO_TCPV4;
    if (kind != (cutting->is_tcp ? tcp : VIRTIO_NET_HDR_GSO_UDP_L4)) return false;
    if (!(offload->flags & VIRTIO_NET_HDR_F_NEEDS_CSUM)) return true;
    return offload->csum_start == cutting->transport && offload->csum_offset == (cutting->is_tcp ? TCP_CHECKSUM : UDP_CHECKSUM);
}

bool begin_cutting(struct cutting *cutting, const struct frame *frame) {
    *cutting = (struct cutting){.octets = frame->octets, .end = frame->length, .size = frame->offload.gso_size};
    uint16_t protocol = pass_tags(cutting);
    if (!protocol || !cutting->size) return false;
    int transport = read_network(cutting, protocol);
    if (transport != IPPROTO_TCP && transport != IPPROTO_UDP) return false;
    return read_transport(cutting, transport) && is_as_described(cutting, &frame->offload);
}

bool has_segment(const struct cutting *cutting) {
    return cutting->at < cutting->end;
}

// Writes the length of a segment into the headers of IP, and into that of IPv4 its number and checksum.
static void write_network(const struct cutting *cutting, unsigned char *headers, size_t payload) {
    unsigned char *header = headers + cutting->network;
    size_t behind = cutting->payload - cutting->network + payload;
    if (cutting->is_version_6) {
        write_two(header + 4, behind - VERSION_6);
        return;
    }
    write_two(header + 2, behind);
    write_two(header + 4, (read_two(header + 4) + cutting->number) & 0xFFFF);
    write_two(header + 10, 0);
    write_checksum(header + 10, summed(0, header, cutting->transport - cutting->network));
}

// The sum of what is summed beside the octets of a transport: both addresses, the protocol and the length.
static uint64_t summed_beside(const struct cutting *cutting, const unsigned char *headers, size_t length) {
    const unsigned char *header = headers + cutting->network;
    uint64_t sum = htons((uint16_t)length) + (uint64_t)htons(cutting->is_tcp ? IPPROTO_TCP : IPPROTO_UDP);
    return cutting->is_version_6 ? summed(sum, header + 8, 32) : summed(sum, header + 12, 8);
}

// Writes what a segment has of its own into the header of TCP: its place, and the flags of the first and the last one.
static void write_tcp(const struct cutting *cutting, unsigned char *header, bool is_last) {
    write_four(header + 4, read_four(header + 4) + (uint32_t)(cutting->at - cutting->payload));
    if (cutting->number) header[13] &= (unsigned char)~WINDOW_REDUCED;
    if (!is_last) header[13] &= (unsigned char)~(FIN | PUSH);
}

size_t next_segment(struct cutting *cutting, unsigned char *headers, struct iovec parts[2]) {
    size_t left = cutting->end - cutting->at, payload = left < cutting->size ? left : cutting->size;
    size_t length = cutting->payload - cutting->transport + payload;
    const unsigned char *octets = cutting->octets + cutting->at;
    memcpy(headers, cutting->octets, cutting->payload);
    unsigned char *header = headers + cutting->transport;
    if (cutting->is_tcp) write_tcp(cutting, header, payload == left);
    else write_two(header + 4, length);
    unsigned char *checksum = header + (cutting->is_tcp ? TCP_CHECKSUM : UDP_CHECKSUM);
    write_two(checksum, 0);
    write_network(cutting, headers, payload);
    uint64_t sum = summed(summed_beside(cutting, headers, length), header, cutting->payload - cutting->transport);
    write_checksum(checksum, summed(sum, octets, payload));
    parts[0] = (struct iovec){headers, cutting->payload};
    parts[1] = (struct iovec){(void *)(uintptr_t)octets, payload};
    cutting->at += payload;
    cutting->number++;
    return cutting->payload + payload;
}
