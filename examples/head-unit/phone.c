/*
 * A phone: phone PORT NAME opens a session in version 5 with the head unit on that port of this machine, starts audio, sends a message in pieces, ends
 * audio and closes the session. It prints each reply's frame info, and ends with 0 only where all are ACKs.
 */
#define _DEFAULT_SOURCE /* usleep */
#include "tilambok.h"

#include <arpa/inet.h>
#include <stdio.h>
#include <stdlib.h>
#include <string.h>
#include <sys/socket.h>
#include <unistd.h>

#define MESSAGE 1000
#define CHUNK 300
#define PIECE 7

static int unit;
static const char *name;

/* Writes bytes a few at a time, as a slow radio does. */
static int put(const uint8_t *bytes, size_t length) {
    for (size_t at = 0; at < length; at += PIECE) {
        size_t piece = length - at < PIECE ? length - at : PIECE;
        if (send(unit, bytes + at, piece, MSG_NOSIGNAL) != (ssize_t)piece) {
            return 0;
        }
        usleep(200);
    }
    return 1;
}

/* A control frame of service 07 (version 1 opens) or 0A in a session; its reply's payload goes to `reply`. Whether it is an ACK, and the session's id. */
static int ask(uint8_t version, uint8_t service, uint8_t info, uint8_t *session, const uint8_t *payload, size_t length, uint8_t *reply) {
    uint8_t bytes[256], fields[TILAMBOK_FIELDS];
    uint32_t size, end;
    size_t came = 0;
    if (tilambok_write_frame(version, 0, TILAMBOK_CONTROL, service, info, *session, (uint32_t)length, 0, payload, length, bytes, sizeof bytes, &size) != TILAMBOK_DONE ||
        !put(bytes, size)) {
        return 0;
    }
    while (tilambok_read_frame(bytes, came, fields, sizeof fields, &end) != TILAMBOK_DONE) {
        ssize_t more = read(unit, bytes + came, sizeof bytes - came);
        if (more <= 0) {
            return 0;
        }
        came += (size_t)more;
    }
    uint8_t start = fields[TILAMBOK_AT_PAYLOAD_START];
    memcpy(reply, bytes + start, end - start);
    *session = fields[TILAMBOK_AT_SESSION_ID];
    printf("%s: service %02x, asked %02x, answered %02x\n", name, service, info, fields[TILAMBOK_AT_FRAME_INFO]);
    return fields[TILAMBOK_AT_FRAME_INFO] == info + 1;
}

/* An End carries the hash that its Start's ACK told: the first tag of that payload, which is copied behind a document's size and before its end. */
static int end(uint8_t service, uint8_t *session, const uint8_t *ack) {
    uint8_t payload[17] = {17}, reply[256];
    memcpy(payload + 4, ack + 4, 12);
    return ask(5, service, 4, session, payload, sizeof payload, reply);
}

static int send_message(uint8_t session) {
    uint8_t message[MESSAGE], frame[CHUNK + TILAMBOK_HEADER];
    uint32_t size, status, k = 0;
    memset(message, 'x', sizeof message);
    while ((status = tilambok_send(5, 7, session, 1, CHUNK, k++, message, sizeof message, frame, sizeof frame, &size)) == TILAMBOK_DONE && put(frame, size)) {
    }
    return status == TILAMBOK_NO_SUCH_FRAME;
}

int main(int argc, char **argv) {
    static const uint8_t wish[] = "\x20\0\0\0\x02protocolVersion\0\6\0\0\0" "5.4.1\0";
    struct sockaddr_in address = {.sin_family = AF_INET, .sin_port = htons((uint16_t)atoi(argc > 1 ? argv[1] : "0")), .sin_addr.s_addr = htonl(INADDR_LOOPBACK)};
    uint8_t session = 0, opened[256], started[256];
    name = argc > 2 ? argv[2] : "phone";
    unit = socket(AF_INET, SOCK_STREAM, 0);
    if (connect(unit, (struct sockaddr *)&address, sizeof address) != 0) {
        perror(name);
        return 1;
    }
    int done = ask(1, 0x07, 1, &session, wish, sizeof wish, opened) && ask(5, 0x0A, 1, &session, wish, 0, started) && send_message(session) &&
               end(0x0A, &session, started) && end(0x07, &session, opened);
    puts(done ? "all done" : "not done");
    return done ? 0 : 1;
}
