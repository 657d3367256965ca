#include "port.h"

#include <arpa/inet.h>
#include <stdio.h>
#include <string.h>

enum { DIGITS = 9, MOST_PORT = 65535, SCOPE = 12 };

// A number of some decimal digits, 0 where it is none.
static uint32_t read_number(const char *digits) {
    uint32_t number = 0;
    size_t length = strlen(digits);
    if (!length || length > DIGITS || strspn(digits, "0123456789") != length) return 0;
    for (; *digits; digits++) number = 10 * number + (uint32_t)(*digits - '0');
    return number;
}

// Reads an address of IPv6, with the number of the interface of one that holds on a link alone, as `fe80::1%2`.
static bool read_version_6(char *host, struct sockaddr_in6 *address) {
    char *scope = strchr(host, '%');
    if (scope) *scope++ = 0;
    if (scope && !(address->sin6_scope_id = read_number(scope))) return false;
    return inet_pton(AF_INET6, host, &address->sin6_addr) == 1;
}

bool read_address(const char *text, struct address *address) {
    char host[SHOWN];
    const char *colon = strrchr(text, ':');
    size_t length = colon ? (size_t)(colon - text) : 0;
    if (!length || length >= sizeof host) return false;
    uint32_t number = read_number(colon + 1);
    if (!number || number > MOST_PORT) return false;
    memcpy(host, text, length);
    host[length] = 0;
    memset(address, 0, sizeof *address);
    if (host[0] == '[' && host[length - 1] == ']') {
        host[length - 1] = 0;
        address->version_6.sin6_family = AF_INET6;
        address->version_6.sin6_port = htons((uint16_t)number);
        address->size = sizeof address->version_6;
        return read_version_6(host + 1, &address->version_6);
    }
    address->version_4.sin_family = AF_INET;
    address->version_4.sin_port = htons((uint16_t)number);
    address->size = sizeof address->version_4;
    return inet_pton(AF_INET, host, &address->version_4.sin_addr) == 1;
}

bool is_unspecified(const struct address *address) {
    if (address->any.sa_family == AF_INET) return address->version_4.sin_addr.s_addr == htonl(INADDR_ANY);
    return IN6_IS_ADDR_UNSPECIFIED(&address->version_6.sin6_addr);
}

bool is_multicast(const struct address *address) {
    if (address->any.sa_family == AF_INET) return IN_MULTICAST(ntohl(address->version_4.sin_addr.s_addr));
    return IN6_IS_ADDR_MULTICAST(&address->version_6.sin6_addr);
}

bool is_same_host(const struct address *one, const struct address *other) {
    if (one->any.sa_family != other->any.sa_family) return false;
    if (one->any.sa_family == AF_INET) return one->version_4.sin_addr.s_addr == other->version_4.sin_addr.s_addr;
    return !memcmp(&one->version_6.sin6_addr, &other->version_6.sin6_addr, sizeof one->version_6.sin6_addr);
}

const char *shown(const struct address *address, char text[SHOWN]) {
    char host[INET6_ADDRSTRLEN];
    if (address->any.sa_family == AF_INET) {
        inet_ntop(AF_INET, &address->version_4.sin_addr, host, sizeof host);
        snprintf(text, SHOWN, "%s:%u", host, (unsigned)ntohs(address->version_4.sin_port));
    } else {
        char scope[SCOPE] = "";
        inet_ntop(AF_INET6, &address->version_6.sin6_addr, host, sizeof host);
        if (address->version_6.sin6_scope_id) snprintf(scope, SCOPE, "%%%u", address->version_6.sin6_scope_id);
        snprintf(text, SHOWN, "[%s%s]:%u", host, scope, (unsigned)ntohs(address->version_6.sin6_port));
    }
    return text;
}
