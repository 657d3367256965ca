#include "port.h"

#include <errno.h>
#include <linux/netlink.h>
#include <linux/rtnetlink.h>
#include <pthread.h>
#include <signal.h>
#include <stdio.h>
#include <stdlib.h>
#include <string.h>
#include <sys/time.h>
#include <sys/un.h>
#include <unistd.h>

static const char usage[] = "usage: agentd-feeder [-h] --config FILE [--control PATH] [--agentd FILE] INTERFACE [INTERFACE ...]\n";
static const char help[] =
    "\n"
    "Carries Ethernet frames between network interfaces and the ports of a served agent.\n"
    "\n"
    "FILE of --config is the configuration of `agentd serve`, as `agentd check --ports` reads it; --agentd gives that program, by\n"
    "default it is `agentd` of PATH. The first INTERFACE is port 1, the next is port 2, and so on. Each frame that an interface\n"
    "receives goes as one datagram to its port's `listen`. Each datagram that the agent sends to its port's `peer` goes out by the\n"
    "interface. A VLAN tag that the system stripped is inserted again, a checksum that it left to the interface is finished, and\n"
    "segments of TCP and UDP that it joined are cut again. Interfaces are in promiscuous mode while the feeder runs. Frames that the\n"
    "system itself sends by an interface are not carried, nor are datagrams of others than the agent, which sends from the addresses\n"
    "of `listen` and `snmp`.\n"
    "\n"
    "PATH is the control socket of `agentd serve --forever`. With it the feeder reports of each port, at the start and where it\n"
    "changes, whether its interface is up and has a carrier: `link P down`, `link P up`. The agent begins with all links up, so a\n"
    "link that is down is reported again each ten seconds; a report that the agent does not take is made again. What lasts less\n"
    "than a second may not be reported.\n"
    "\n"
    "It needs the right to open raw sockets: root's, or CAP_NET_RAW. Start it before the agent. It runs until SIGINT or SIGTERM. On\n"
    "standard error it logs its ports, at most once a minute the counts of a port that dropped more frames, and at the end all\n"
    "counts:\n"
    "\n"
    "    in          frames to the agent\n"
    "    out         frames from the agent\n"
    "    long        dropped: above 1,518 octets\n"
    "    short       dropped: below 14 octets\n"
    "    strange     dropped: from another host than the agent's\n"
    "    failed      errors of its sockets, as of an interface that is down\n"
    "    behind      dropped by the system, as they came faster than they were carried\n"
    "    unfinished  dropped: a checksum whose place is not in the frame\n"
    "    joined      dropped: segments that the system joined and that cannot be cut again\n"
    "\n"
    "An interface that was removed is opened again when one of its name exists. Exit status 0 at SIGINT or SIGTERM, 1 where a socket\n"
    "cannot be opened, 2 where the words or FILE are wrong.\n"
    "\n"
    "positional arguments:\n"
    "  INTERFACE       the interface of port 1, then that of port 2, and so on\n"
    "\n"
    "options:\n"
    "  -h, --help      show this help message and exit\n"
    "  --config FILE   the configuration of the agent\n"
    "  --control PATH  the control socket of the agent, at which links are reported\n"
    "  --agentd FILE   the program that reads the configuration, by default agentd in PATH\n";

struct words {
    const char *config, *control, *agentd;
    char **interfaces;
    size_t interface_count;
};

__attribute__((noreturn)) static void refuse_words(const char *why, const char *word) {
    fprintf(stderr, "%sfeeder: %s%s\n", usage, why, word);
    exit(2);
}

// The value of an option, as `--config FILE` or `--config=FILE`; nothing where the word is another.
static const char *value_of(const char *option, char **words, int *at) {
    size_t length = strlen(option);
    if (strncmp(words[*at], option, length)) return NULL;
    if (words[*at][length] == '=') return words[*at] + length + 1;
    if (words[*at][length]) return NULL;
    if (!words[++*at]) refuse_words("no value behind ", option);
    return words[*at];
}

// Takes the words that are options; the others stand in `interfaces`.
static void take_word(struct words *found, char **words, int *at, bool *is_behind_options) {
    const char *value;
    if (*is_behind_options || words[*at][0] != '-') {
        found->interfaces[found->interface_count++] = words[*at];
    } else if (!strcmp(words[*at], "--")) {
        *is_behind_options = true;
    } else if (!strcmp(words[*at], "--help") || !strcmp(words[*at], "-h")) {
        printf("%s%s", usage, help);
        exit(0);
    } else if ((value = value_of("--config", words, at))) {
        found->config = value;
    } else if ((value = value_of("--control", words, at))) {
        found->control = value;
    } else if ((value = value_of("--agentd", words, at))) {
        found->agentd = value;
    } else {
        refuse_words("no such option: ", words[*at]);
    }
}

static struct words read_words(int count, char **words) {
    struct words found = {.agentd = "agentd", .interfaces = memory((size_t)count * sizeof(char *))};
    bool is_behind_options = false;
    for (int at = 1; at < count; at++) take_word(&found, words, &at, &is_behind_options);
    if (!found.config) refuse_words("no --config FILE", "");
    if (!found.interface_count) refuse_words("no INTERFACE", "");
    return found;
}

// Informs systemd, where it asks for it, that all sockets are there.
static void notify(void) {
    const char *path = getenv("NOTIFY_SOCKET");
    struct sockaddr_un place = {.sun_family = AF_UNIX};
    size_t length = path ? strlen(path) : 0;
    if (!length || length >= sizeof place.sun_path) return;
    memcpy(place.sun_path, path, length);
    if (path[0] == '@') place.sun_path[0] = 0;
    int to = socket(AF_UNIX, SOCK_DGRAM | SOCK_CLOEXEC, 0);
    if (to < 0) return;
    socklen_t size = (socklen_t)(offsetof(struct sockaddr_un, sun_path) + length);
    static const char ready[] = "READY=1";
    if (sendto(to, ready, sizeof ready - 1, MSG_NOSIGNAL, (struct sockaddr *)&place, size) < 0) log_line("systemd is not informed");
    close(to);
}

static void start(void *(*run)(void *), void *argument) {
    pthread_t thread;
    if (pthread_create(&thread, NULL, run, argument) || pthread_detach(thread)) fail(1, "no thread can be started");
}

// Begins to report links.
static void start_reporter(struct reporter *reporter) {
    struct sockaddr_nl place = {.nl_family = AF_NETLINK, .nl_groups = RTMGRP_LINK};
    struct timeval pause = {.tv_sec = PAUSE};
    reporter->changes = socket(AF_NETLINK, SOCK_RAW | SOCK_CLOEXEC, NETLINK_ROUTE);
    if (reporter->changes < 0 || bind(reporter->changes, (struct sockaddr *)&place, sizeof place)
        || setsockopt(reporter->changes, SOL_SOCKET, SO_RCVTIMEO, &pause, sizeof pause)) {
        fail(1, "links cannot be watched: %s", strerror(errno));
    }
    start(report_links, reporter);
}

// Opens all ports, and carries frames, each way of a port by a thread.
static void feed(struct ports *ports, struct reporter *reporter) {
    char listen[SHOWN], peer[SHOWN];
    for (size_t i = 0; i < ports->count; i++) open_port(&ports->port[i]);
    for (size_t i = 0; i < ports->count; i++) {
        struct port *port = &ports->port[i];
        log_line("port %d: %s, listen %s, peer %s", port->number, port->interface, shown(&port->listen, listen),
                 shown(&port->peer, peer));
    }
    for (size_t i = 0; i < ports->count; i++) {
        start(carry_in, &ports->port[i]);
        start(carry_out, &ports->port[i]);
    }
    log_line("ready");
    notify();
    if (reporter->path) start_reporter(reporter);
}

// Waits for the signal that ends the program, and logs dropped frames meanwhile.
static void wait_for_end(struct ports *ports, const sigset_t *signals) {
    struct timespec silence = {.tv_sec = SILENCE};
    while (sigtimedwait(signals, NULL, &silence) < 0) {
        if (errno == EAGAIN) log_dropped(ports);
    }
}

int main(int count, char **arguments) {
    sigset_t signals;
    signal(SIGPIPE, SIG_IGN);
    signal(SIGXFSZ, SIG_IGN);
    struct words words = read_words(count, arguments);
    struct ports ports = read_ports(words.agentd, words.config, words.interfaces, words.interface_count);
    struct reporter reporter = {.path = words.control, .ports = &ports};
    sigemptyset(&signals);
    sigaddset(&signals, SIGTERM);
    sigaddset(&signals, SIGINT);
    pthread_sigmask(SIG_BLOCK, &signals, NULL);
    feed(&ports, &reporter);
    wait_for_end(&ports, &signals);
    for (size_t i = 0; i < ports.count; i++) {
        count_behind(&ports.port[i]);
        log_counts(&ports.port[i], "");
    }
    return 0;
}
