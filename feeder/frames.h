// Frames as a packet socket gives them, made such as they stand on a wire: with the tag that the system took out, with the
// checksum that it left unfinished, and cut into the segments that it joined. Nothing here takes memory or calls the system.

#ifndef FRAMES_H
#define FRAMES_H

#include <linux/virtio_net.h>
#include <stdbool.h>
#include <stddef.h>
#include <stdint.h>
#include <sys/uio.h>

#ifndef VIRTIO_NET_HDR_GSO_UDP_L4
#define VIRTIO_NET_HDR_GSO_UDP_L4 5 // of Linux 6.2
#endif

enum {
    SHORTEST = 14,     // octets of a frame without its check sequence
    LONGEST = 1518,    // the same, with a tag
    TAG_OCTETS = 4,    // of a VLAN tag, for which there is space in front of a frame
    MOST_HEADERS = 256 // octets of all headers of a joined frame
};

// A frame, with what the system says of its checksum and of the segments that it joined.
struct frame {
    unsigned char *octets;
    size_t length;
    struct virtio_net_hdr offload;
};

// How a joined frame is cut: where its headers begin, and how far it is cut.
struct cutting {
    const unsigned char *octets;
    size_t network, transport, payload, end; // places
    size_t size;                             // octets of payload in a segment
    size_t at;                               // the next octet of payload
    unsigned number;                         // of the next segment
    bool is_version_6, is_tcp;
};

// Inserts a tag behind the addresses of a frame of at least 12 octets; the frame then begins TAG_OCTETS earlier.
void insert_tag(struct frame *frame, uint16_t protocol, uint16_t tag);

// Whether the frame is of segments that the system joined.
bool is_joined(const struct frame *frame);

// Finishes the checksum of a frame, where that is wanted. False where its place lies not in the frame.
bool finish_checksum(struct frame *frame);

// Begins to cut a joined frame. False where it cannot be cut.
bool begin_cutting(struct cutting *cutting, const struct frame *frame);

// Whether there is a segment more.
bool has_segment(const struct cutting *cutting);

// The next segment, where there is one: its headers are written into `headers`, of MOST_HEADERS octets; its payload stays where
// it is. Gives its octets.
size_t next_segment(struct cutting *cutting, unsigned char *headers, struct iovec parts[2]);

#endif
