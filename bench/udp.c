// The two ends of UDP that bench/udp.py measures with: an echo, and clients that ask and count.
//
//     udp echo ADDRESS:PORT THREADS
//     udp ask ADDRESS:PORT CLIENTS SECONDS < REQUESTS
//
// `echo` sends each datagram back as it came, by so many threads on one socket, until it is killed. `ask` sends the requests, a
// line of hexadecimal digits each, in turn, over again for so many seconds. Each client is a thread with a connected socket of
// its own and one request under way; where no reply comes within a second, it is lost, and the client goes on by a new socket,
// so that a late reply is not taken for the next. Of the replies, those whose error-status is not 0 are counted too (the echo's
// never are: there stands the 0 of the request). ADDRESS is one of IPv4. To be built by `cc -O2 -pthread`.

#include <arpa/inet.h>
#include <errno.h>
#include <pthread.h>
#include <stdatomic.h>
#include <stdio.h>
#include <stdlib.h>
#include <string.h>
#include <sys/socket.h>
#include <sys/time.h>
#include <time.h>
#include <unistd.h>

static const char usage[] = "echo ADDRESS:PORT THREADS, or ask ADDRESS:PORT CLIENTS SECONDS";

enum { MOST_OCTETS = 65536, MOST_REQUESTS = 64, MOST_THREADS = 64 };

struct request {
    unsigned char octets[1472];
    size_t length;
};

struct client {
    pthread_t thread;
    unsigned char reply[MOST_OCTETS];
    long replies, errors, lost;
};

static struct sockaddr_in address;
static struct request requests[MOST_REQUESTS];
static unsigned long request_count;
static atomic_ulong turn;
static double end;
static struct client clients[MOST_THREADS];

static void fail(const char *what) {
    fprintf(stderr, "udp: %s\n", what);
    exit(1);
}

static double now(void) {
    struct timespec time;
    clock_gettime(CLOCK_MONOTONIC, &time);
    return time.tv_sec + time.tv_nsec / 1e9;
}

static void read_address(char *text) {
    char *colon = strrchr(text, ':');
    if (!colon) fail("no ADDRESS:PORT");
    *colon = 0;
    address.sin_family = AF_INET;
    address.sin_port = htons(atoi(colon + 1));
    if (inet_pton(AF_INET, text, &address.sin_addr) != 1) fail("no ADDRESS:PORT");
}

static void read_requests(void) {
    char line[2 * sizeof requests->octets + 2];
    while (fgets(line, sizeof line, stdin)) {
        if (request_count == MOST_REQUESTS) fail("too many requests");
        struct request *request = &requests[request_count++];
        const char *digits = line;
        while (sscanf(digits, "%2hhx", &request->octets[request->length]) == 1) {
            if (request->length + 1 == sizeof request->octets) fail("too long a request");
            request->length++;
            digits += 2;
        }
    }
    if (!request_count) fail("no requests");
}

static void *echo(void *place) {
    int socket = *(int *)place;
    unsigned char *octets = malloc(MOST_OCTETS);
    if (!octets) fail("no memory");
    struct sockaddr_in peer;
    socklen_t size = sizeof peer;
    ssize_t length;
    while ((length = recvfrom(socket, octets, MOST_OCTETS, 0, (struct sockaddr *)&peer, &size)) >= 0) {
        sendto(socket, octets, length, 0, (struct sockaddr *)&peer, size);
    }
    fail("cannot receive");
    return NULL;
}

static void run_echo(int threads) {
    int shared = socket(AF_INET, SOCK_DGRAM, 0);
    if (shared < 0 || bind(shared, (struct sockaddr *)&address, sizeof address)) fail("cannot listen");
    pthread_t thread;
    for (int i = 1; i < threads; i++) {
        if (pthread_create(&thread, NULL, echo, &shared)) fail("no thread");
    }
    echo(&shared);
}

static int connected(void) {
    struct timeval second = {.tv_sec = 1};
    int own = socket(AF_INET, SOCK_DGRAM, 0);
    if (own < 0 || setsockopt(own, SOL_SOCKET, SO_RCVTIMEO, &second, sizeof second)) fail("no socket");
    if (connect(own, (struct sockaddr *)&address, sizeof address)) fail("cannot connect");
    return own;
}

// Where the value of an element of BER begins.
static size_t value_at(const unsigned char *octets, size_t at) {
    return at + 2 + (octets[at + 1] > 128 ? octets[at + 1] & 127 : 0);
}

// Whether a message of SNMP has another error-status than 0, or is none; the octets behind its length are octets of the buffer.
static int has_error(const unsigned char *octets, size_t length) {
    size_t at = value_at(octets, 0) + 3;
    at += 2 + octets[at + 1];
    at = value_at(octets, at);
    at += 2 + octets[at + 1];
    return at + 3 > length || octets[at] != 2 || octets[at + 1] != 1 || octets[at + 2] != 0;
}

static void *ask(void *place) {
    struct client *client = place;
    int own = connected();
    while (now() < end) {
        struct request *request = &requests[turn++ % request_count];
        if (send(own, request->octets, request->length, 0) < 0) fail("cannot send");
        ssize_t length = recv(own, client->reply, MOST_OCTETS, 0);
        if (length >= 0) {
            client->replies++;
            client->errors += has_error(client->reply, length);
        } else if (errno == EAGAIN || errno == EWOULDBLOCK) {
            client->lost++;
            close(own);
            own = connected();
        } else {
            fail(strerror(errno));
        }
    }
    close(own);
    return NULL;
}

static void run_ask(int count, double seconds) {
    read_requests();
    double start = now();
    end = start + seconds;
    for (int i = 0; i < count; i++) {
        if (pthread_create(&clients[i].thread, NULL, ask, &clients[i])) fail("no thread");
    }
    long replies = 0, errors = 0, lost = 0;
    for (int i = 0; i < count; i++) {
        pthread_join(clients[i].thread, NULL);
        replies += clients[i].replies;
        errors += clients[i].errors;
        lost += clients[i].lost;
    }
    printf("%ld replies in %.3f seconds, %ld lost, %ld with an error\n", replies, now() - start, lost, errors);
}

int main(int count, char **words) {
    int threads = count > 3 ? atoi(words[3]) : 0;
    if (threads < 1 || threads > MOST_THREADS) fail(usage);
    read_address(words[2]);
    if (count == 4 && !strcmp(words[1], "echo")) run_echo(threads);
    if (count != 5 || strcmp(words[1], "ask")) fail(usage);
    run_ask(threads, atof(words[4]));
}
