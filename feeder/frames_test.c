// Tries what reads frames, with random and built ones, under sanitizers: `make feeder-test`.
//
//     frames-test [FRAMES [SEED]]
//
// The first half of the frames lie in memory of exactly their length, and go through the functions of frames.h; what comes out is
// held against sums and lengths that are found in another way. The second half goes through the batches of incoming.c, of which
// this file has its own sending.

#include "incoming.c"

#include <stdio.h>
#include <stdlib.h>

enum { MOST = 70000, FEW = 200, TCP_HEADER = 20, UDP_HEADER = 8 };

static uint64_t drawn = 1;
static unsigned long cut_frames, segments, finished, refused, sent_pieces;

// The next random number below a bound.
static size_t draw(size_t bound) {
    drawn ^= drawn << 13;
    drawn ^= drawn >> 7;
    drawn ^= drawn << 17;
    return (size_t)(drawn >> 11) % bound;
}

static void must(bool holds, const char *what) {
    if (holds) return;
    fprintf(stderr, "frames-test: %s\n", what);
    abort();
}

// The sum of octets by pairs, an odd one as the first of a pair, without what is carried.
static uint64_t sum_of(const unsigned char *octets, size_t length) {
    uint64_t sum = 0;
    for (size_t i = 0; i < length; i++) sum += i % 2 ? octets[i] : (uint64_t)octets[i] << 8;
    return sum;
}

static unsigned folded(uint64_t sum) {
    while (sum > 0xFFFF) sum = sum / 0x10000 + sum % 0x10000;
    return (unsigned)sum;
}

// Writes headers as they are to be, of Ethernet, tags, IP and TCP or UDP; gives where the transport begins.
static size_t build(unsigned char *octets, bool is_version_6, bool is_tcp) {
    size_t at = 12;
    for (size_t tags = draw(4); tags > 0; tags--, at += 4) memcpy(octets + at, draw(2) ? "\x81\0\0\x64" : "\x88\xA8\0\1", 4);
    memcpy(octets + at, is_version_6 ? "\x86\xDD" : "\x08\0", 2);
    at += 2;
    unsigned char protocol = is_tcp ? IPPROTO_TCP : IPPROTO_UDP;
    if (is_version_6) {
        octets[at] = 0x60;
        octets[at + 6] = draw(8) ? protocol : IPPROTO_HOPOPTS;
        octets[at + 40] = protocol;
        octets[at + 41] = (unsigned char)(draw(4) ? draw(4) : draw(40));
        at += octets[at + 6] == IPPROTO_HOPOPTS ? 48 + 8 * (size_t)octets[at + 41] : 40;
    } else {
        size_t options = draw(4) ? 0 : draw(11);
        octets[at] = (unsigned char)(0x45 + options);
        octets[at + 6] = 0x40;
        octets[at + 7] = 0;
        octets[at + 9] = protocol;
        at += 20 + 4 * options;
    }
    octets[at + 12] = (unsigned char)(0x50 + (draw(4) ? 0 : draw(11) << 4));
    return at;
}

// Fills octets and what is said of them: at random, or built, with some of it changed.
static void fill(unsigned char *octets, size_t length, struct virtio_net_hdr *offload) {
    unsigned char whole[MOST + 512];
    for (size_t i = 0; i < length + 512; i += sizeof drawn) {
        draw(1);
        memcpy(whole + i, &drawn, sizeof drawn);
    }
    bool is_version_6 = draw(2), is_tcp = draw(2);
    *offload = (struct virtio_net_hdr){.flags = VIRTIO_NET_HDR_F_NEEDS_CSUM, .gso_size = (uint16_t)(1 + draw(1500))};
    if (draw(4)) {
        offload->csum_start = (uint16_t)build(whole, is_version_6, is_tcp);
        offload->csum_offset = is_tcp ? 16 : 6;
        int tcp = is_version_6 ? VIRTIO_NET_HDR_GSO_TCPV6 : VIRTIO_NET_HDR_GSO_TCPV4;
        if (draw(4)) offload->gso_type = (unsigned char)(is_tcp ? tcp : VIRTIO_NET_HDR_GSO_UDP_L4);
        for (size_t changes = draw(3); changes > 0; changes--) whole[draw(160)] = (unsigned char)draw(256);
    }
    if (!draw(8)) offload->flags = (unsigned char)draw(4);
    if (!draw(8)) offload->gso_type = (unsigned char)draw(256);
    if (!draw(8)) offload->gso_size = (uint16_t)draw(draw(2) ? 65536 : 3);
    if (!draw(8)) offload->csum_start = (uint16_t)draw(65536);
    if (!draw(8)) offload->csum_offset = (uint16_t)draw(65536);
    if (!draw(8)) offload->hdr_len = (uint16_t)draw(65536);
    memcpy(octets, whole, length);
}

// A length: short, of a frame, or of a joined one.
static size_t draw_length(void) {
    size_t kind = draw(16);
    if (kind < 4) return draw(120);
    return kind < 14 ? draw(1600) : draw(kind == 14 ? 9000 : OCTETS + 1);
}

// Holds the checksums of a segment against sums of its octets; the segment stands in one piece.
static void check_segment(const struct cutting *cutting, const unsigned char *octets, size_t length) {
    const unsigned char *network = octets + cutting->network, *transport = octets + cutting->transport;
    size_t behind = length - cutting->transport;
    uint64_t beside = behind + (cutting->is_tcp ? IPPROTO_TCP : IPPROTO_UDP);
    if (cutting->is_version_6) {
        must(length - cutting->network - 40 == (size_t)(network[4] << 8 | network[5]), "a length of IPv6");
        beside += sum_of(network + 8, 32);
    } else {
        must(length - cutting->network == (size_t)(network[2] << 8 | network[3]), "a length of IPv4");
        must(folded(sum_of(network, cutting->transport - cutting->network)) == 0xFFFF, "a checksum of IPv4");
        beside += sum_of(network + 12, 8);
    }
    if (!cutting->is_tcp) must(behind == (size_t)(transport[4] << 8 | transport[5]), "a length of UDP");
    must(folded(beside + sum_of(transport, behind)) == 0xFFFF, "a checksum of a segment");
}

// Cuts a joined frame, where it can be cut, and holds the payload of the segments against its own.
static void try_cutting(const struct frame *frame) {
    struct cutting cutting;
    struct iovec parts[2];
    if (!begin_cutting(&cutting, frame)) {
        refused++;
        return;
    }
    cut_frames++;
    unsigned char *headers = malloc(MOST_HEADERS), *segment = malloc(MOST_HEADERS + frame->length);
    size_t at = cutting.payload;
    while (has_segment(&cutting)) {
        size_t length = next_segment(&cutting, headers, parts), payload = length - cutting.payload;
        must(parts[0].iov_base == headers && parts[0].iov_len == cutting.payload, "headers of a segment");
        must(parts[1].iov_base == frame->octets + at && parts[1].iov_len == payload, "octets of a segment");
        must(payload == cutting.size || (payload && at + payload == frame->length), "a size of a segment");
        memcpy(segment, headers, cutting.payload);
        memcpy(segment + cutting.payload, parts[1].iov_base, payload);
        check_segment(&cutting, segment, length);
        at += payload;
        segments++;
    }
    must(at == frame->length, "all octets of a joined frame");
    free(headers);
    free(segment);
}

// Finishes a checksum, and holds it against a sum of the octets as they were.
static void try_finishing(struct frame *frame) {
    size_t start = frame->offload.csum_start, place = start + frame->offload.csum_offset;
    bool is_inside = start >= SHORTEST && place + 2 <= frame->length;
    unsigned expected = is_inside ? ~folded(sum_of(frame->octets + start, frame->length - start)) & 0xFFFF : 0;
    bool is_wanted = frame->offload.flags & VIRTIO_NET_HDR_F_NEEDS_CSUM;
    must(finish_checksum(frame) == (!is_wanted || is_inside), "a place of a checksum");
    if (!is_wanted || !is_inside) return;
    unsigned found = (unsigned)(frame->octets[place] << 8 | frame->octets[place + 1]);
    must(found == (expected ? expected : 0xFFFF), "a checksum");
    finished++;
}

// A frame in memory of its own length.
static void try_frame(void) {
    size_t length = draw_length();
    unsigned char *space = malloc(TAG_OCTETS + length);
    struct frame frame = {.octets = space + TAG_OCTETS, .length = length};
    fill(frame.octets, length, &frame.offload);
    if (length >= SHORTEST && !draw(4)) {
        insert_tag(&frame, (uint16_t)draw(65536), (uint16_t)draw(65536));
        must(frame.octets == space && frame.length == length + TAG_OCTETS, "a tag");
    }
    if (is_joined(&frame)) try_cutting(&frame);
    else try_finishing(&frame);
    free(space);
}

// What stands in the place of sending: each message is of frames that may be carried, in groups that the system can cut.
void send_all(int socket, struct mmsghdr *messages, size_t number, void (*sent)(void *of, size_t message, int error), void *of) {
    struct incoming *incoming = of;
    (void)socket;
    for (size_t i = 0; i < number; i++) {
        const struct msghdr *message = &messages[i].msg_hdr;
        const struct group *group = &incoming->groups[i];
        size_t octets = 0, lengths = 0;
        for (size_t part = 0; part < message->msg_iovlen; part++) octets += message->msg_iov[part].iov_len;
        for (size_t piece = group->first; piece < group->first + group->count; piece++) {
            size_t length = incoming->length[piece], first = incoming->length[group->first];
            must(length >= SHORTEST && length <= LONGEST, "a length that is carried");
            must(length == first || (length < first && piece + 1 == group->first + group->count), "a length of a group");
            lengths += length;
        }
        must(octets == lengths && octets <= MOST_TOGETHER && group->count <= TOGETHER, "a group");
        sent_pieces += group->count;
        sent(of, i, draw(64) ? 0 : ENETDOWN);
    }
}

// A batch of frames as the system gives them.
static void try_batch(struct incoming *incoming) {
    for (int i = 0; i < BATCH; i++) {
        struct received *received = &incoming->received[i];
        struct mmsghdr *message = &incoming->batch[i];
        make_ready(received, &message->msg_hdr);
        size_t length = draw_length();
        if (length > OCTETS) length = OCTETS;
        fill(received->octets, length, &received->offload);
        message->msg_len = (unsigned)(draw(FEW) ? length + sizeof received->offload : draw(sizeof received->offload));
        message->msg_hdr.msg_flags = draw(FEW) ? 0 : MSG_TRUNC;
        received->source.sll_pkttype = draw(16) ? PACKET_HOST : PACKET_OUTGOING;
        struct tpacket_auxdata tag = {.tp_status = (uint32_t)draw(256), .tp_vlan_tci = (uint16_t)draw(65536), .tp_vlan_tpid = 0x88A8};
        struct cmsghdr *head = CMSG_FIRSTHDR(&message->msg_hdr);
        *head = (struct cmsghdr){.cmsg_level = SOL_PACKET, .cmsg_type = PACKET_AUXDATA, .cmsg_len = CMSG_LEN(sizeof tag)};
        memcpy(CMSG_DATA(head), &tag, sizeof tag);
        if (!draw(8)) message->msg_hdr.msg_controllen = 0;
        take_frame(incoming, received, message);
    }
    send_pieces(incoming);
    must(incoming->piece_count == 0 && incoming->part_count == 0, "all pieces are sent");
}

int main(int number, char **words) {
    long frames = number > 1 ? atol(words[1]) : 200000;
    drawn = number > 2 ? strtoull(words[2], NULL, 10) | 1 : 1;
    struct port port = {.interface = "frames-test", .listen = {.size = sizeof(struct sockaddr_in)}};
    struct incoming *incoming = calloc(1, sizeof *incoming);
    must(incoming != NULL, "memory");
    incoming->port = &port;
    for (long i = 0; i < frames / 2; i++) try_frame();
    for (long i = 0; i < frames / 2; i += BATCH) try_batch(incoming);
    free(incoming);
    printf("ok %ld frames: %lu were cut into %lu segments, %lu were not, %lu checksums were finished; %lu pieces were sent by batches\n",
           frames, cut_frames, segments, refused, finished, sent_pieces);
    must(cut_frames > (unsigned long)frames / 40 && finished > (unsigned long)frames / 40, "too few of a kind");
    return 0;
}
