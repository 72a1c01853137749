/* A head unit on a TCP port of this machine, one link for each connection: head_unit PORT [CONNECTIONS]. Port 0 is any free one; the port is printed. */
#include "tilambok.h"

#include <arpa/inet.h>
#include <stdio.h>
#include <stdlib.h>
#include <string.h>
#include <sys/socket.h>
#include <sys/wait.h>
#include <unistd.h>

static uint8_t state[TILAMBOK_LINK_STATE], pool[TILAMBOK_LINK_POOL], input[TILAMBOK_LARGEST_FRAME], out[TILAMBOK_LARGEST_DATA];

/* Answers the frame at the front of so many bytes: how many it has, 0 where more are needed, -1 where the connection ends. */
static long answer(int phone, size_t waiting) {
    uint8_t service, fields[TILAMBOK_FIELDS];
    uint32_t consumed, value;
    uint32_t status = tilambok_link_call(state, sizeof state, pool, sizeof pool, input, waiting, out, sizeof out, 32, 64, 39027, &service, &consumed, &value);
    switch (status) {
    case TILAMBOK_SHORT:
        return 0;
    case TILAMBOK_DELIVERED:
        printf("service %02x: %lu bytes\n", service, (unsigned long)value);
        return consumed;
    case TILAMBOK_ACK:
    case TILAMBOK_NAK:
    case TILAMBOK_HEARTBEAT_ACK:
        return send(phone, out, value, MSG_NOSIGNAL) == (ssize_t)value ? (long)consumed : -1;
    case TILAMBOK_DONE:
        return consumed;
    default: /* refused: the frame is passed over; what is no frame at all ends the connection */
        printf("refused with %lu\n", (unsigned long)status);
        return tilambok_read_frame(input, waiting, fields, sizeof fields, &value) == TILAMBOK_DONE ? (long)value : -1;
    }
}

/* One connection. Frames may come in pieces: what waits for the rest of its frame stays at the front of the input. */
static void serve(int phone) {
    size_t waiting = 0;
    ssize_t came;
    tilambok_link_create(state, sizeof state, 5, 4, 1, 131084);
    while ((came = read(phone, input + waiting, sizeof input - waiting)) > 0) {
        long taken = 1;
        for (waiting += (size_t)came; waiting > 0 && (taken = answer(phone, waiting)) > 0; waiting -= (size_t)taken) {
            memmove(input, input + taken, waiting - (size_t)taken);
        }
        if (taken < 0) {
            return;
        }
        fflush(stdout);
    }
}

int main(int argc, char **argv) {
    struct sockaddr_in address = {.sin_family = AF_INET, .sin_port = htons((uint16_t)atoi(argc > 1 ? argv[1] : "0")), .sin_addr.s_addr = htonl(INADDR_LOOPBACK)};
    socklen_t length = sizeof address;
    int listener = socket(AF_INET, SOCK_STREAM, 0);
    if (bind(listener, (struct sockaddr *)&address, length) != 0 || listen(listener, 8) != 0) {
        perror("head_unit");
        return 1;
    }
    getsockname(listener, (struct sockaddr *)&address, &length);
    printf("port %u\n", ntohs(address.sin_port));
    fflush(stdout);
    for (long left = argc > 2 ? atol(argv[2]) : -1; left != 0; left--) {
        int phone = accept(listener, NULL, NULL);
        if (phone >= 0 && fork() == 0) { /* a process for each connection: state and pool are its own */
            serve(phone);
            fflush(stdout);
            _exit(0);
        }
        close(phone);
    }
    while (wait(NULL) > 0) {
    }
    return 0;
}
