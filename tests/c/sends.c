/*
 * The message sender's test: tilambok_send, called from C on the lines of a script.
 *
 * It reads lines on standard input and answers each on standard output, as docs/DRIVER.md says, for `send`; any other line
 * is answered `?`. So its answers can be compared with those of any program that speaks these lines.
 * On each line it also holds the calls to what tilambok.h promises, and ends with status 1 and a message where one breaks
 * it. Every lent buffer ends right before a page that may not be touched (script.h).
 */
#define _DEFAULT_SOURCE /* mmap */

#include "script.h"

struct sending {
    uint32_t version, service, session, id, chunk, k;
};

/* sends to a new buffer and looks at what does not depend on the answer; the caller frees the buffer */
static struct result send_with(struct sending s, struct block message, size_t room, struct block *out) {
    struct block lent = copy_of(message.data, message.length);
    struct block number = new_number();
    *out = new_block(room, FILL);
    struct result result = told(tilambok_send((uint8_t)s.version, (uint8_t)s.service, (uint8_t)s.session, s.id, s.chunk, s.k, lent.data, lent.length,
                                              out->data, out->length, number_in(number)),
                                number);
    hold(same(lent.data, message.data, message.length), "the sender changed its message");
    hold(!is_short(result), "the sender is never Short");
    hold(!is_done(result) || result.value <= room, "the sender wrote more than there is room for");
    hold(untouched(*out, is_done(result) ? result.value : 0), "the sender wrote past its bytes, or refused and wrote");
    free_block(lent);
    return result;
}

/* how many consecutive frames a message has */
static uint32_t count_of(struct sending s, size_t length) {
    return length <= s.chunk ? 0 : (uint32_t)((length + s.chunk - 1) / s.chunk);
}

/* a frame's payload against the part of the message that it carries */
static void hold_payload(struct sending s, struct block message, const uint8_t *payload, uint32_t size, const uint8_t *fields) {
    uint32_t count = count_of(s, message.length);
    size_t start = count == 0 ? 0 : (size_t)(s.k - 1) * s.chunk;
    if (count != 0 && s.k == 0) {
        hold(fields[TILAMBOK_AT_FRAME_TYPE] == TILAMBOK_FIRST && fields[TILAMBOK_AT_FRAME_INFO] == 0, "a First Frame comes first, with info 0");
        hold(tilambok_field_u32(payload) == message.length && tilambok_field_u32(payload + 4) == count, "it tells total and count");
        return;
    }
    hold(fields[TILAMBOK_AT_FRAME_TYPE] == (count == 0 ? TILAMBOK_SINGLE : TILAMBOK_CONSECUTIVE), "one frame, or consecutive ones");
    hold(fields[TILAMBOK_AT_FRAME_INFO] == (s.k == count ? 0 : 1 + (s.k - 1) % 255), "the frame has its number");
    hold(size == (s.k == count ? message.length - start : s.chunk), "each frame but the last has a whole chunk");
    hold(same(payload, message.data + start, size), "it carries its part of the message");
}

/* what was sent is read back as that frame, and nothing is left over */
static void hold_read_back(struct sending s, struct block message, struct result result, struct block out) {
    uint8_t fields[TILAMBOK_FIELDS];
    struct block frame = copy_of(out.data, result.value);
    struct block number = new_number();
    struct result read = told(tilambok_read_frame(frame.data, frame.length, fields, sizeof fields, number_in(number)), number);
    hold(same_result(read, result), "what was sent is read back, every byte of it");
    hold(fields[TILAMBOK_AT_VERSION] == s.version && fields[TILAMBOK_AT_FLAG] == 0, "version and clear flag are read back");
    hold(fields[TILAMBOK_AT_SERVICE_TYPE] == s.service && fields[TILAMBOK_AT_SESSION_ID] == s.session, "service and session are read back");
    hold(tilambok_field_u32(fields + TILAMBOK_AT_MESSAGE_ID) == (s.version == 1 ? 0 : s.id), "the message id is read back");
    hold_payload(s, message, frame.data + fields[TILAMBOK_AT_PAYLOAD_START], tilambok_field_u32(fields + TILAMBOK_AT_DATA_SIZE), fields);
    free_block(frame);
}

/* one byte less of room is refused, and more changes nothing */
static void hold_room(struct sending s, struct block message, struct result result, struct block out) {
    struct block other;
    hold(is_refusal(send_with(s, message, result.value - 1, &other), TILAMBOK_TOO_SMALL), "a frame without room is refused with 11");
    free_block(other);
    hold(same_result(send_with(s, message, result.value + 3, &other), result), "room past the frame changes no answer");
    hold(same(other.data, out.data, result.value), "room past the frame changes no byte");
    free_block(other);
}

/* send version service session id chunk k OUTLEN HEX */
static int answer_send(struct text *line) {
    struct sending s;
    uint32_t room;
    struct block message, out;
    if (!read_number(line, 255, &s.version) || !read_number(line, 255, &s.service) || !read_number(line, 255, &s.session) ||
        !read_number(line, UINT32_MAX, &s.id) || !read_number(line, UINT32_MAX, &s.chunk) || !read_number(line, UINT32_MAX, &s.k) ||
        !read_number(line, LARGEST_OUT, &room) || !read_last_bytes(line, &message)) {
        return 0;
    }
    struct result result = send_with(s, message, room, &out);
    if (is_done(result)) {
        hold_read_back(s, message, result, out);
        hold_room(s, message, result, out);
        printf("B %lu %lu ", (unsigned long)result.value, (unsigned long)check_of(out));
        print_bytes(out.data, result.value);
    } else {
        printf("R %lu\n", (unsigned long)result.status);
    }
    free_block(out);
    free_block(message);
    return 1;
}

static void answer(struct text *line) {
    struct text command;
    if (!next_word(line, &command) || !is_word(command, "send") || !answer_send(line)) {
        puts("?");
    }
}

int main(void) {
    return answer_lines(answer);
}
