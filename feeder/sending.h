// Messages that are sent by one call, and what became of each.

#ifndef SENDING_H
#define SENDING_H

#include "port.h"

// Sends messages in their order; `sent` hears of each, with the error of one that was not sent, else with 0.
void send_all(int socket, struct mmsghdr *messages, size_t number, void (*sent)(void *of, size_t message, int error), void *of);

#endif
