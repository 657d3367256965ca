// What bench/frames.py measures frames with: a sender and a receiver of frames, the ends of a stream, and the least that can stand
// in the agent's place.
//
//     frames switch LISTEN PEER LISTEN PEER
//     frames udp LISTEN PEER LENGTH RATE SECONDS
//     frames wire INTERFACE INTERFACE LENGTH RATE SECONDS
//     frames listen ADDRESS:PORT
//     frames stream ADDRESS:PORT SECONDS
//
// `switch` sends what comes at the socket of one port to the peer of the other, by a thread each way, until it is killed; it learns
// nothing, and reads no frame. `udp` sends frames to the `listen` of one port, and counts those that come at the `peer` of another;
// `wire` does the same by two interfaces. They send so many a second in steps of a millisecond, at RATE 0 as many as they can, and
// write how many were sent, how many came and in how many seconds they were sent. `stream` sends octets by TCP, and `listen` takes
// one such stream, and writes its octets and its seconds. Addresses are of IPv4. To be built by `cc -O2 -pthread`.

#include <arpa/inet.h>
#include <errno.h>
#include <linux/if_ether.h>
#include <linux/if_packet.h>
#include <net/if.h>
#include <pthread.h>
#include <stdatomic.h>
#include <stdio.h>
#include <stdlib.h>
#include <string.h>
#include <sys/socket.h>
#include <sys/time.h>
#include <time.h>
#include <unistd.h>

static const char usage[] = "switch LISTEN PEER LISTEN PEER, udp LISTEN PEER LENGTH RATE SECONDS, wire INTERFACE INTERFACE LENGTH RATE "
                            "SECONDS, listen ADDRESS:PORT, or stream ADDRESS:PORT SECONDS";

enum { BATCH = 64, OCTETS = 2048, BUFFER = 16 << 20, CHUNK = 1 << 17, BACKLOG = 1 };

static const unsigned char head[] = {2, 0, 0, 0, 2, 2, 2, 0, 0, 0, 2, 1, 0x88, 0xB5, 'f', 'r', 'a', 'm', 'e', 's'};

struct way {
    int from, by;
    struct sockaddr_in to;
};

struct receiver {
    int socket;
    size_t length;
    atomic_int is_ended;
    unsigned long count;
};

static void fail(const char *what) {
    fprintf(stderr, "frames: %s\n", what);
    exit(1);
}

static double now(void) {
    struct timespec time;
    clock_gettime(CLOCK_MONOTONIC, &time);
    return (double)time.tv_sec + (double)time.tv_nsec / 1e9;
}

static struct sockaddr_in read_address(char *text) {
    struct sockaddr_in address = {.sin_family = AF_INET};
    char *colon = strrchr(text, ':');
    if (!colon) fail("no ADDRESS:PORT");
    *colon = 0;
    address.sin_port = htons((uint16_t)atoi(colon + 1));
    if (inet_pton(AF_INET, text, &address.sin_addr) != 1) fail("no ADDRESS:PORT");
    *colon = ':';
    return address;
}

// Has a socket hold much, and wait for half a second at most.
static void set_up(int own) {
    int buffer = BUFFER;
    struct timeval half = {.tv_usec = 500000};
    if (setsockopt(own, SOL_SOCKET, SO_RCVBUFFORCE, &buffer, sizeof buffer)) {
        setsockopt(own, SOL_SOCKET, SO_RCVBUF, &buffer, sizeof buffer);
    }
    setsockopt(own, SOL_SOCKET, SO_RCVTIMEO, &half, sizeof half);
}

static int bound(char *text) {
    struct sockaddr_in address = read_address(text);
    int own = socket(AF_INET, SOCK_DGRAM, 0);
    if (own < 0 || bind(own, (struct sockaddr *)&address, sizeof address)) fail("cannot listen");
    set_up(own);
    return own;
}

static int wire(const char *interface) {
    struct sockaddr_ll place = {.sll_family = AF_PACKET, .sll_protocol = htons(ETH_P_ALL), .sll_ifindex = (int)if_nametoindex(interface)};
    int own = socket(AF_PACKET, SOCK_RAW, 0);
    if (own < 0) fail("no raw socket");
    set_up(own);
    if (bind(own, (struct sockaddr *)&place, sizeof place)) fail("no such interface");
    return own;
}

static void *carry(void *place) {
    const struct way *way = place;
    static _Thread_local unsigned char octets[BATCH][OCTETS];
    struct sockaddr_in to = way->to;
    struct iovec parts[BATCH];
    struct mmsghdr messages[BATCH];
    while (1) {
        for (int i = 0; i < BATCH; i++) {
            parts[i] = (struct iovec){octets[i], OCTETS};
            messages[i].msg_hdr = (struct msghdr){.msg_iov = &parts[i], .msg_iovlen = 1};
        }
        int count = recvmmsg(way->from, messages, BATCH, MSG_WAITFORONE, NULL);
        for (int i = 0; i < count; i++) {
            parts[i].iov_len = messages[i].msg_len;
            messages[i].msg_hdr.msg_name = &to;
            messages[i].msg_hdr.msg_namelen = sizeof to;
        }
        for (int at = 0; at < count;) {
            int sent = sendmmsg(way->by, messages + at, (unsigned)(count - at), 0);
            at += sent > 0 ? sent : 1;
        }
    }
    return NULL;
}

static void run_switch(char **words) {
    int one = bound(words[0]), other = bound(words[2]);
    struct way there = {one, other, read_address(words[3])}, back = {other, one, read_address(words[1])};
    pthread_t thread;
    if (pthread_create(&thread, NULL, carry, &there)) fail("no thread");
    carry(&back);
}

// Counts the frames that come until the sender has ended and none comes any more.
static void *receive(void *place) {
    struct receiver *receiver = place;
    static unsigned char octets[BATCH][OCTETS];
    struct iovec parts[BATCH];
    struct mmsghdr messages[BATCH];
    for (int i = 0; i < BATCH; i++) {
        parts[i] = (struct iovec){octets[i], OCTETS};
        messages[i].msg_hdr = (struct msghdr){.msg_iov = &parts[i], .msg_iovlen = 1};
    }
    while (1) {
        int count = recvmmsg(receiver->socket, messages, BATCH, MSG_WAITFORONE, NULL);
        if (count < 0 && receiver->is_ended) return NULL;
        for (int i = 0; i < count; i++) {
            receiver->count += messages[i].msg_len == receiver->length && !memcmp(octets[i], head, sizeof head);
        }
    }
}

// Sends so many frames of a batch as are wanted; gives how many the system took.
static unsigned send_some(int by, struct mmsghdr *messages, unsigned wanted) {
    int sent = sendmmsg(by, messages, wanted < BATCH ? wanted : BATCH, 0);
    return sent > 0 ? (unsigned)sent : 0;
}

// Sends frames at a rate, and writes what became of them.
static void measure(int by, struct sockaddr_in *to, int from, char **words) {
    struct receiver receiver = {.socket = from, .length = (size_t)atol(words[0])};
    unsigned char octets[OCTETS] = {0};
    double rate = atof(words[1]), seconds = atof(words[2]);
    if (receiver.length < sizeof head || receiver.length > OCTETS) fail(usage);
    memcpy(octets, head, sizeof head);
    struct iovec part = {octets, receiver.length};
    struct mmsghdr messages[BATCH];
    for (int i = 0; i < BATCH; i++) {
        messages[i].msg_hdr = (struct msghdr){.msg_iov = &part, .msg_iovlen = 1, .msg_name = to, .msg_namelen = to ? sizeof *to : 0};
    }
    pthread_t thread;
    if (pthread_create(&thread, NULL, receive, &receiver)) fail("no thread");
    const struct timespec step = {.tv_nsec = 1000000};
    unsigned long sent = 0;
    double start = now(), passed;
    while ((passed = now() - start) < seconds) {
        double due = rate > 0 ? rate * passed : (double)sent + BATCH;
        if (due < (double)sent + 1) nanosleep(&step, NULL);
        else sent += send_some(by, messages, (unsigned)(due - (double)sent));
    }
    receiver.is_ended = 1;
    pthread_join(thread, NULL);
    printf("%lu %lu %.3f\n", sent, receiver.count, passed);
}

static void take_stream(char *text) {
    static char octets[CHUNK];
    struct sockaddr_in address = read_address(text);
    int yes = 1, listener = socket(AF_INET, SOCK_STREAM, 0);
    setsockopt(listener, SOL_SOCKET, SO_REUSEADDR, &yes, sizeof yes);
    if (bind(listener, (struct sockaddr *)&address, sizeof address) || listen(listener, BACKLOG)) fail("cannot listen");
    int own = accept(listener, NULL, NULL);
    if (own < 0) fail("no stream");
    unsigned long count = 0;
    ssize_t more;
    double start = now();
    while ((more = recv(own, octets, sizeof octets, 0)) > 0) count += (unsigned long)more;
    printf("%lu %.3f\n", count, now() - start);
}

static void send_stream(char *text, double seconds) {
    static char octets[CHUNK];
    struct sockaddr_in address = read_address(text);
    int own = socket(AF_INET, SOCK_STREAM, 0);
    if (connect(own, (struct sockaddr *)&address, sizeof address)) fail("no connection");
    double end = now() + seconds;
    while (now() < end) {
        if (send(own, octets, sizeof octets, MSG_NOSIGNAL) < 0) fail(strerror(errno));
    }
    close(own);
}

int main(int count, char **words) {
    if (count == 6 && !strcmp(words[1], "switch")) run_switch(words + 2);
    else if (count == 7 && !strcmp(words[1], "udp")) {
        struct sockaddr_in to = read_address(words[2]);
        int own = socket(AF_INET, SOCK_DGRAM, 0);
        measure(own, &to, bound(words[3]), words + 4);
    } else if (count == 7 && !strcmp(words[1], "wire")) measure(wire(words[2]), NULL, wire(words[3]), words + 4);
    else if (count == 3 && !strcmp(words[1], "listen")) take_stream(words[2]);
    else if (count == 4 && !strcmp(words[1], "stream")) send_stream(words[2], atof(words[3]));
    else fail(usage);
}
