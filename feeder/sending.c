#include "sending.h"

#include <errno.h>
#include <poll.h>

enum { PATIENCE = 100 }; // milliseconds in which a full socket has space again

// Whether a full socket has space in time.
static bool has_space(int socket) {
    struct pollfd full = {.fd = socket, .events = POLLOUT};
    return poll(&full, 1, PATIENCE) > 0;
}

void send_all(int socket, struct mmsghdr *messages, size_t number, void (*sent)(void *of, size_t message, int error), void *of) {
    bool waited = false;
    size_t at = 0;
    while (at < number) {
        int done = sendmmsg(socket, messages + at, (unsigned)(number - at), MSG_DONTWAIT);
        if (done < 0 && errno == EINTR) continue;
        if (done < 0 && (errno == EAGAIN || errno == EWOULDBLOCK) && !waited) {
            waited = true;
            if (has_space(socket)) continue;
            errno = EAGAIN;
        }
        if (done < 0) {
            sent(of, at++, errno);
            continue;
        }
        waited = false;
        for (int i = 0; i < done; i++) sent(of, at++, 0);
    }
}
