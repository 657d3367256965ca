// Reports to an agent which links are down and up, beside the frames that are carried.

#include "port.h"

#include <errno.h>
#include <linux/netlink.h>
#include <net/if.h>
#include <stdio.h>
#include <string.h>
#include <sys/ioctl.h>
#include <sys/time.h>
#include <sys/un.h>
#include <unistd.h>

enum {
    AGAIN = 10,   // seconds between two reports of a link that is down
    ANSWERED = 2, // seconds in which the agent answers a report
    TEXT = 256,   // characters of an answer's line that are kept
    MOST_READS = 64
};

// What the agent knows of a link, and what went wrong with the last report.
enum known { UNKNOWN, UP, DOWN };
struct link {
    enum known known;
    double since;
    char fault[TEXT];
};

// Whether an interface is there, is up and has a carrier.
static enum known state_of(int by, const char *interface) {
    struct ifreq asked = {0};
    if (strlen(interface) >= sizeof asked.ifr_name) return DOWN;
    memcpy(asked.ifr_name, interface, strlen(interface));
    if (ioctl(by, SIOCGIFFLAGS, &asked)) return DOWN;
    return (asked.ifr_flags & (IFF_UP | IFF_RUNNING)) == (IFF_UP | IFF_RUNNING) ? UP : DOWN;
}

// Takes octets of an answer: the first line that is no BPDU of the agent is what goes wrong.
struct answer {
    char line[TEXT], fault[TEXT];
    size_t length;
};
static void take_octets(struct answer *answer, const char *octets, size_t count) {
    for (size_t i = 0; i < count; i++) {
        if (octets[i] != '\n') {
            if (answer->length < TEXT - 1) answer->line[answer->length++] = octets[i];
            continue;
        }
        answer->line[answer->length] = 0;
        if (!answer->fault[0] && strncmp(answer->line, "bpdu ", 5)) memcpy(answer->fault, answer->line, TEXT);
        answer->length = 0;
    }
}

// Reads an answer until its end; false where it does not come in time.
static bool read_answer(int agent, struct answer *answer) {
    char octets[4096];
    for (int reads = 0; reads < MOST_READS; reads++) {
        ssize_t count = recv(agent, octets, sizeof octets, 0);
        if (count < 0) return false;
        if (count == 0) break;
        take_octets(answer, octets, (size_t)count);
    }
    if (answer->length) take_octets(answer, "\n", 1);
    return true;
}

// Sends a command to a control socket, and reads the answer; false where the system does not do it.
static bool ask_agent(int agent, const struct sockaddr_un *place, const char *command, struct answer *answer) {
    struct timeval patience = {.tv_sec = ANSWERED};
    setsockopt(agent, SOL_SOCKET, SO_RCVTIMEO, &patience, sizeof patience);
    setsockopt(agent, SOL_SOCKET, SO_SNDTIMEO, &patience, sizeof patience);
    return !connect(agent, (const struct sockaddr *)place, sizeof *place)
        && send(agent, command, strlen(command), MSG_NOSIGNAL) == (ssize_t)strlen(command)
        && !shutdown(agent, SHUT_WR) && read_answer(agent, answer);
}

// Reports a link, and writes what goes wrong into `fault`, nothing where it is taken.
static void report(const char *path, int number, const char *word, char fault[TEXT]) {
    struct sockaddr_un place = {.sun_family = AF_UNIX};
    struct answer answer = {0};
    char command[32];
    snprintf(command, sizeof command, "link %d %s\n", number, word);
    fault[0] = 0;
    if (strlen(path) >= sizeof place.sun_path) {
        snprintf(fault, TEXT, "AF_UNIX path too long");
        return;
    }
    memcpy(place.sun_path, path, strlen(path));
    int agent = socket(AF_UNIX, SOCK_STREAM | SOCK_CLOEXEC, 0);
    if (agent < 0 || !ask_agent(agent, &place, command, &answer)) {
        snprintf(fault, TEXT, "%s", errno == EAGAIN || errno == EWOULDBLOCK ? "timed out" : strerror(errno));
    } else {
        memcpy(fault, answer.fault, TEXT);
    }
    if (agent >= 0) close(agent);
}

// Reports the link of a port where that is due.
static void check(struct link *link, const char *path, int number, enum known state) {
    double time = now();
    if (state == link->known && (state == UP || time < link->since + AGAIN)) return;
    const char *word = state == UP ? "up" : "down";
    char fault[TEXT];
    report(path, number, word, fault);
    enum known before = link->known;
    // A report that failed may have been taken all the same.
    link->known = fault[0] ? UNKNOWN : state;
    link->since = time;
    bool is_news = before != UNKNOWN || state == DOWN || link->fault[0];
    if (!fault[0] && state != before && is_news) log_line("port %d: link %s", number, word);
    if (fault[0] && strcmp(fault, link->fault)) log_line("port %d: link %s is not reported: %s", number, word, fault);
    memcpy(link->fault, fault, TEXT);
}

void *report_links(void *of) {
    struct reporter *reporter = of;
    struct ports *ports = reporter->ports;
    struct link *links = memory(ports->count * sizeof *links);
    char message[4096];
    while (true) {
        for (size_t i = 0; i < ports->count; i++) {
            check(&links[i], reporter->path, ports->port[i].number, state_of(reporter->changes, ports->port[i].interface));
        }
        // The message of a change is not read: the interfaces are asked anew.
        if (recv(reporter->changes, message, sizeof message, 0) < 0 && errno == EBADF) return NULL;
    }
}
