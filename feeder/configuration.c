// Reads the ports by the agent's own reader of a configuration: `agentd check --ports --config FILE` writes `snmp ADDRESS`, and for
// each port `NUMBER LISTEN PEER`.

#include "port.h"

#include <errno.h>
#include <signal.h>
#include <stdio.h>
#include <stdlib.h>
#include <string.h>
#include <sys/wait.h>
#include <unistd.h>

enum { LINE = 512, KEPT = 8192, NOT_RUN = 127 };

struct reading {
    const char *file;
    struct address snmp;
    struct ports ports;
    size_t found; // ports so far, also those above the interfaces
    char kept[KEPT], wrong[LINE]; // the first lines, and the first of them that is none that is known
    size_t kept_count;
};

// Starts the program with its standard output at a pipe; its standard error is the feeder's.
static FILE *start_check(const char *agentd, const char *file, pid_t *child) {
    int ends[2];
    if (pipe(ends)) fail(1, "no pipe: %s", strerror(errno));
    *child = fork();
    if (*child < 0) fail(1, "%s cannot be run: %s", agentd, strerror(errno));
    if (!*child) {
        dup2(ends[1], STDOUT_FILENO);
        close(ends[0]);
        close(ends[1]);
        execlp(agentd, agentd, "check", "--ports", "--config", file, (char *)NULL);
        log_line("%s cannot be run: %s", agentd, strerror(errno));
        _exit(NOT_RUN);
    }
    close(ends[1]);
    FILE *lines = fdopen(ends[0], "r");
    if (!lines) fail(1, "no pipe: %s", strerror(errno));
    return lines;
}

// An address of the configuration that is that of one machine, or the end of the program.
static struct address address_of(const char *text, const char *key, int port) {
    struct address address;
    if (!read_address(text, &address)) {
        fail(2, "%s of port %d is to be an address as \"127.0.0.1:16001\", and is '%s'", key, port, text);
    }
    if (is_unspecified(&address) || is_multicast(&address)) {
        fail(2, "%s of port %d is to be the address of one machine, and is '%s'", key, port, text);
    }
    return address;
}

// Takes a line; false where it is none that is known.
static bool take_line(struct reading *reading, const char *line) {
    char listen[SHOWN], peer[SHOWN];
    size_t number;
    if (sscanf(line, "snmp %65s", listen) == 1) return read_address(listen, &reading->snmp);
    if (sscanf(line, "%zu %65s %65s", &number, listen, peer) != 3 || number != reading->found + 1) return false;
    if (reading->found++ >= reading->ports.count) return true;
    struct port *port = &reading->ports.port[number - 1];
    port->number = (int)number;
    port->listen = address_of(listen, "listen", port->number);
    port->peer = address_of(peer, "peer", port->number);
    return true;
}

// Takes all lines, and keeps the first of them.
static void read_lines(struct reading *reading, FILE *lines) {
    char line[LINE];
    while (fgets(line, sizeof line, lines)) {
        size_t length = strlen(line);
        if (reading->kept_count + length <= KEPT) {
            memcpy(reading->kept + reading->kept_count, line, length);
            reading->kept_count += length;
        }
        line[strcspn(line, "\n")] = 0;
        if (!reading->wrong[0] && !take_line(reading, line)) memcpy(reading->wrong, line, sizeof line);
    }
}

// Has the program read the configuration, and passes on what it refuses.
static void run_check(struct reading *reading, const char *agentd) {
    pid_t child;
    int status = 0;
    FILE *lines = start_check(agentd, reading->file, &child);
    read_lines(reading, lines);
    fclose(lines);
    while (waitpid(child, &status, 0) < 0 && errno == EINTR) {}
    if (WIFSIGNALED(status)) fail(2, "%s check --ports: %s", agentd, strsignal(WTERMSIG(status)));
    if (status) {
        // Its standard error is the feeder's, and has the rest.
        fwrite(reading->kept, 1, reading->kept_count, stderr);
        exit(2);
    }
    if (reading->wrong[0]) fail(2, "%s check --ports: no port is in its line '%s'", agentd, reading->wrong);
    if (!reading->snmp.size) fail(2, "%s check --ports: no line has the address of snmp", agentd);
}

// Adds a host to those from which the agent sends, if it is not among them.
static void add_sender(struct port *port, const struct address *host) {
    for (size_t i = 0; i < port->sender_count; i++) {
        if (is_same_host(&port->senders[i], host)) return;
    }
    port->senders[port->sender_count++] = *host;
}

// The hosts from which the agent sends: without an end from free ports of its hosts; one on this machine, from the peer's own.
static void find_senders(struct reading *reading) {
    struct ports *ports = &reading->ports;
    for (size_t i = 0; i < ports->count; i++) {
        struct port *port = &ports->port[i];
        port->senders = memory((ports->count + 2) * sizeof *port->senders);
        add_sender(port, &port->peer);
        if (!is_unspecified(&reading->snmp)) add_sender(port, &reading->snmp);
        for (size_t other = 0; other < ports->count; other++) add_sender(port, &ports->port[other].listen);
    }
}

struct ports read_ports(const char *agentd, const char *file, char **interfaces, size_t interface_count) {
    static struct reading reading;
    reading.file = file;
    reading.ports.count = interface_count;
    reading.ports.port = memory(interface_count * sizeof *reading.ports.port);
    run_check(&reading, agentd);
    if (reading.found != interface_count) {
        fail(2, "%s has %zu ports, and %zu interfaces are named", file, reading.found, interface_count);
    }
    for (size_t i = 0; i < interface_count; i++) {
        reading.ports.port[i].interface = interfaces[i];
        for (size_t other = 0; other < i; other++) {
            if (!strcmp(interfaces[i], interfaces[other])) fail(2, "an interface is named twice");
        }
    }
    find_senders(&reading);
    return reading.ports;
}
