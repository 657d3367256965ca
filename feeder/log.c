#include "port.h"

#include <stdarg.h>
#include <stdio.h>
#include <stdlib.h>
#include <string.h>
#include <sys/mman.h>
#include <time.h>
#include <unistd.h>

enum { LINE = 1024 };

static const char *const names[COUNTS] = {"in", "out", "long", "short", "strange", "failed", "behind", "unfinished", "joined"};

// Writes a line at once, so that lines of several threads do not mix.
static void write_line(const char *format, va_list rest) {
    char line[LINE] = "feeder: ";
    size_t length = strlen(line);
    int more = vsnprintf(line + length, LINE - length - 1, format, rest);
    if (more < 0) return;
    length = strlen(line);
    line[length] = '\n';
    if (write(STDERR_FILENO, line, length + 1) < 0) return;
}

void log_line(const char *format, ...) {
    va_list rest;
    va_start(rest, format);
    write_line(format, rest);
    va_end(rest);
}

void fail(int status, const char *format, ...) {
    va_list rest;
    va_start(rest, format);
    write_line(format, rest);
    va_end(rest);
    exit(status);
}

void count(struct port *port, enum count which, size_t many) {
    atomic_fetch_add_explicit(&port->counts[which], many, memory_order_relaxed);
}

static unsigned long counted(struct port *port, enum count which) {
    return atomic_load_explicit(&port->counts[which], memory_order_relaxed);
}

void log_counts(struct port *port, const char *behind) {
    char text[LINE] = "";
    size_t length = 0;
    for (enum count which = IN; which < COUNTS; which++) {
        length += (size_t)snprintf(text + length, LINE - length, " %s %lu", names[which], counted(port, which));
    }
    log_line("%s:%s%s", port->interface, text, behind);
}

// Whether a port dropped frames since this was last asked.
static bool has_dropped(struct port *port) {
    bool dropped = false;
    for (enum count which = LONG; which < COUNTS; which++) {
        unsigned long number = counted(port, which);
        dropped |= number != port->logged[which];
        port->logged[which] = number;
    }
    return dropped;
}

void log_dropped(struct ports *ports) {
    for (size_t i = 0; i < ports->count; i++) {
        if (has_dropped(&ports->port[i])) log_counts(&ports->port[i], " since the start");
    }
}

void *memory(size_t size) {
    void *found = mmap(NULL, size, PROT_READ | PROT_WRITE, MAP_PRIVATE | MAP_ANONYMOUS | MAP_POPULATE, -1, 0);
    if (found == MAP_FAILED) fail(1, "there is no memory");
    return found;
}

double now(void) {
    struct timespec time;
    clock_gettime(CLOCK_MONOTONIC, &time);
    return (double)time.tv_sec + (double)time.tv_nsec / 1e9;
}
