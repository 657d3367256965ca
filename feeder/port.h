// The ports of an agent: the interface of each, its addresses, its sockets and its counts; the log.

#ifndef PORT_H
#define PORT_H

#include <netinet/in.h>
#include <stdatomic.h>
#include <stdbool.h>
#include <stddef.h>
#include <sys/socket.h>

enum {
    PAUSE = 1,    // seconds between two checks of an interface
    SILENCE = 60, // seconds between two lines on dropped frames
    BUFFER = 4 << 20, // octets that a socket is to hold
    SHOWN = INET6_ADDRSTRLEN + 20 // characters of an address with its scope and a port of UDP
};

// What is carried, and what is dropped, in the order of a line of counts.
enum count { IN, OUT, LONG, SHORT, STRANGE, FAILED, BEHIND, UNFINISHED, JOINED, COUNTS };

// An address and a port of UDP.
struct address {
    union {
        struct sockaddr any;
        struct sockaddr_in version_4;
        struct sockaddr_in6 version_6;
    };
    socklen_t size;
};

// A port: its interface and that interface's number, its sockets, and the hosts from which the agent sends.
struct port {
    int number;
    const char *interface;
    struct address listen, peer;
    struct address *senders;
    size_t sender_count;
    atomic_int index;
    int wire, outlet, agent; // from the interface, to the interface, from and to the agent
    atomic_ulong counts[COUNTS];
    unsigned long logged[COUNTS];
    bool sends_single; // each frame by a datagram of its own: the system does not cut them
    bool is_joined_logged;
};

struct ports {
    struct port *port;
    size_t count;
};

// Reads the ports by `agentd check --ports`; ends the program with status 2 where they are refused.
struct ports read_ports(const char *agentd, const char *file, char **interfaces, size_t count);

// Reads an address as `127.0.0.1:16001` or `[::1]:16001`. False where it is none.
bool read_address(const char *text, struct address *address);
bool is_unspecified(const struct address *address);
bool is_multicast(const struct address *address);
bool is_same_host(const struct address *one, const struct address *other);
// Writes an address as the configuration has it.
const char *shown(const struct address *address, char text[SHOWN]);

// Opens the sockets of a port; ends the program with status 1 where one cannot be opened.
void open_port(struct port *port);
// Opens the interface of a port's name again, where it is another one than before.
void renew(struct port *port);
// Counts what the system dropped of an interface since this was last asked.
void count_behind(struct port *port);

// Carries frames from the interface to the agent, or from the agent to the interface, without an end; the argument is a port.
void *carry_in(void *port);
void *carry_out(void *port);
// Reports links at a control socket, without an end.
struct reporter {
    const char *path;
    struct ports *ports;
    int changes;
};
void *report_links(void *reporter);

// A line on standard error, if it can be written.
__attribute__((format(printf, 1, 2))) void log_line(const char *format, ...);
// The same, and the end of the program.
__attribute__((format(printf, 2, 3), noreturn)) void fail(int status, const char *format, ...);
void log_counts(struct port *port, const char *behind);
// A line for each port that dropped frames since its last line.
void log_dropped(struct ports *ports);

void count(struct port *port, enum count which, size_t many);
// Memory for the whole run, all of it resident from the beginning; the end of the program where there is none.
void *memory(size_t size);
double now(void);

#endif
