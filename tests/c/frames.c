/*
 * The capture adapter's test: the frame reader and the frame writers, called from C on the lines of a script.
 *
 * It reads lines on standard input and answers each on standard output, as docs/DRIVER.md says, for `read` and `write`;
 * any other line is answered `?`. So its answers can be compared with those of any program that speaks these lines.
 * On each line it also holds the calls to what tilambok.h promises, and ends with status 1 and a message where one breaks
 * it. Every lent buffer ends right before a page that may not be touched (script.h).
 */
#define _DEFAULT_SOURCE /* mmap */

#include "script.h"

/* ---- the reader ---- */

/* reads with `room` bytes of fields and looks at what does not depend on the answer; the caller frees the fields */
static struct result read_with(struct block bytes, size_t room, struct block *fields) {
    struct block lent = copy_of(bytes.data, bytes.length);
    *fields = new_block(room, FILL);
    struct block number = new_number();
    struct result result = told(tilambok_read_frame(lent.data, lent.length, fields->data, fields->length, number_in(number)), number);
    hold(same(lent.data, bytes.data, bytes.length), "the reader changed its input");
    hold(untouched(*fields, is_done(result) ? TILAMBOK_FIELDS : 0), "the reader wrote past the fields, or without a frame");
    free_block(lent);
    return result;
}

/* what a frame's fields say of each other, and of the bytes that were read */
static void hold_fields(struct block bytes, struct result result, const uint8_t *fields) {
    uint32_t start = fields[TILAMBOK_AT_PAYLOAD_START];
    uint32_t size = tilambok_field_u32(fields + TILAMBOK_AT_DATA_SIZE);
    hold(fields[TILAMBOK_AT_FLAG] <= 1, "the flag's field is 0 or 1");
    hold(fields[TILAMBOK_AT_ZERO] == 0, "the spare field is 0");
    hold(start == (fields[TILAMBOK_AT_VERSION] == 1 ? 8u : 12u), "the payload starts behind the header");
    hold(result.value == start + size, "a frame takes header plus data size");
    hold(result.value <= bytes.length, "a frame is all there");
}

/* the answers that are no frame: their numbers, and that the room for fields changes nothing */
static void hold_unread(struct block bytes, struct result result) {
    if (is_short(result)) {
        hold(result.value > bytes.length, "Short names more bytes than are there");
    } else {
        hold(result.status >= TILAMBOK_BAD_VERSION && result.status <= TILAMBOK_BAD_SIZE, "the reader's refusals are 1 to 6");
    }
}

/* one reading by four lengths of fields; the 16 bytes of a frame go to `fields` */
static struct result read_frame(struct block bytes, uint8_t *fields) {
    static const size_t rooms[4] = {TILAMBOK_FIELDS, 20, 15, 0};
    struct result first = {0, 0};
    for (int i = 0; i < 4; i++) {
        struct block lent;
        struct result result = read_with(bytes, rooms[i], &lent);
        if (i == 0) {
            first = result;
            memcpy(fields, lent.data, TILAMBOK_FIELDS);
        } else if (is_done(first) && rooms[i] < TILAMBOK_FIELDS) {
            hold(is_refusal(result, TILAMBOK_TOO_SMALL), "a frame without room for its fields is refused with 11");
        } else {
            hold(same_result(result, first), "room past the fields changes no answer");
            hold(rooms[i] < TILAMBOK_FIELDS || same(fields, lent.data, TILAMBOK_FIELDS), "room past the fields changes no field");
        }
        free_block(lent);
    }
    if (is_done(first)) {
        hold_fields(bytes, first, fields);
    } else {
        hold_unread(bytes, first);
    }
    return first;
}

static int answer_read(struct text *line) {
    struct block bytes;
    if (!read_last_bytes(line, &bytes)) {
        return 0;
    }
    uint8_t fields[TILAMBOK_FIELDS];
    struct result result = read_frame(bytes, fields);
    if (is_done(result)) {
        printf("F %u %u %u %u %u %u %lu %lu %lu ", fields[TILAMBOK_AT_VERSION], fields[TILAMBOK_AT_FLAG],
               fields[TILAMBOK_AT_FRAME_TYPE], fields[TILAMBOK_AT_SERVICE_TYPE], fields[TILAMBOK_AT_FRAME_INFO],
               fields[TILAMBOK_AT_SESSION_ID], (unsigned long)tilambok_field_u32(fields + TILAMBOK_AT_DATA_SIZE),
               (unsigned long)tilambok_field_u32(fields + TILAMBOK_AT_MESSAGE_ID), (unsigned long)result.value);
        print_bytes(bytes.data + fields[TILAMBOK_AT_PAYLOAD_START], tilambok_field_u32(fields + TILAMBOK_AT_DATA_SIZE));
    } else {
        printf("%c %lu\n", is_short(result) ? 'S' : 'R', (unsigned long)(is_short(result) ? result.value : result.status));
    }
    free_block(bytes);
    return 1;
}

/* ---- the writers ---- */

struct header {
    uint32_t version, flag, type, service, info, session, size, message;
};

static struct result write_frame_to(struct header h, uint32_t flag, struct block payload, struct block out) {
    struct block number = new_number();
    uint32_t status =
        tilambok_write_frame((uint8_t)h.version, (uint8_t)flag, (uint8_t)h.type, (uint8_t)h.service, (uint8_t)h.info, (uint8_t)h.session, h.size,
                             h.message, payload.data, payload.length, out.data, out.length, number_in(number));
    hold(status != TILAMBOK_SHORT, "a writer is never Short");
    return told(status, number);
}

/* writes the frame to a new buffer and looks at what does not depend on the answer; the caller frees the buffer */
static struct result write_frame(struct header h, uint32_t flag, struct block payload, size_t room, struct block *out) {
    struct block lent = copy_of(payload.data, payload.length);
    *out = new_block(room, FILL);
    struct result result = write_frame_to(h, flag, lent, *out);
    hold(same(lent.data, payload.data, payload.length), "the frame writer changed its payload");
    hold(!is_done(result) || result.value <= room, "the frame writer wrote more than there is room for");
    hold(untouched(*out, is_done(result) ? result.value : 0), "the frame writer wrote past its bytes, or refused and wrote");
    free_block(lent);
    return result;
}

/* any flag but 0 is set */
static void hold_flag(struct header h, struct block payload, struct result result, struct block out) {
    static const uint32_t set[3] = {2, 128, 255};
    for (int i = 0; h.flag != 0 && i < 3; i++) {
        struct block other;
        hold(write_frame(h, set[i], payload, out.length, &other).status == result.status, "any flag but 0 is set: another result");
        hold(same(other.data, out.data, out.length), "any flag but 0 is set: other bytes");
        free_block(other);
    }
}

/* the header writer against what the frame writer answered for the same header and room */
static void hold_header(struct header h, struct block payload, struct result frame, struct block out) {
    struct block alone = new_block(out.length, FILL);
    struct block number = new_number();
    struct result result = told(tilambok_write_header((uint8_t)h.version, (uint8_t)h.flag, (uint8_t)h.type, (uint8_t)h.service, (uint8_t)h.info,
                                                      (uint8_t)h.session, h.size, h.message, alone.data, alone.length, number_in(number)),
                                number);
    if (is_done(result)) {
        hold(result.value == (h.version == 1 ? 8u : 12u), "a header is 8 bytes in version 1, else 12");
        hold(result.value <= alone.length, "the header writer wrote more than there is room for");
        hold(untouched(alone, result.value), "the header writer wrote past its bytes");
    } else {
        hold(!is_short(result), "a writer is never Short");
        hold(untouched(alone, 0), "the header writer refused and wrote");
    }
    if (is_done(frame)) {
        hold(is_done(result), "a frame was written, so its header can be");
        hold(same(alone.data, out.data, result.value), "the header is the frame's first bytes");
    } else if (frame.status <= TILAMBOK_BAD_FLAG || (is_refusal(frame, TILAMBOK_BAD_SIZE) && h.size == payload.length)) {
        hold(same_result(result, frame), "both writers refuse a header alike");
    } else if (is_refusal(frame, TILAMBOK_TOO_SMALL)) {
        hold(is_done(result) || is_refusal(result, TILAMBOK_TOO_SMALL), "too small for a frame is no fault of its header");
    } else {
        hold(is_refusal(frame, TILAMBOK_BAD_SIZE), "the writers' refusals are 1 to 6 and 11");
    }
    free_block(alone);
}

/* what was written is read back as that header and payload, and nothing is left over */
static void hold_read_back(struct header h, struct block payload, struct result result, struct block out) {
    uint8_t fields[TILAMBOK_FIELDS];
    struct block frame = copy_of(out.data, result.value);
    hold(same_result(read_frame(frame, fields), result), "what was written is read back, every byte of it");
    hold(fields[TILAMBOK_AT_VERSION] == h.version, "the version is read back");
    hold(fields[TILAMBOK_AT_FLAG] == (h.flag != 0), "the flag is read back");
    hold(fields[TILAMBOK_AT_FRAME_TYPE] == h.type, "the frame type is read back");
    hold(fields[TILAMBOK_AT_SERVICE_TYPE] == h.service, "the service type is read back");
    hold(fields[TILAMBOK_AT_FRAME_INFO] == h.info, "the frame info is read back");
    hold(fields[TILAMBOK_AT_SESSION_ID] == h.session, "the session id is read back");
    hold(tilambok_field_u32(fields + TILAMBOK_AT_DATA_SIZE) == h.size, "the data size is read back");
    hold(tilambok_field_u32(fields + TILAMBOK_AT_MESSAGE_ID) == (h.version == 1 ? 0 : h.message), "the message id is read back");
    hold(same(frame.data + fields[TILAMBOK_AT_PAYLOAD_START], payload.data, payload.length), "the payload is read back");
    free_block(frame);
}

static int read_header(struct text *line, struct header *h) {
    return read_number(line, 255, &h->version) && read_number(line, 1, &h->flag) && read_number(line, 255, &h->type) &&
           read_number(line, 255, &h->service) && read_number(line, 255, &h->info) && read_number(line, 255, &h->session) &&
           read_number(line, UINT32_MAX, &h->size) && read_number(line, UINT32_MAX, &h->message);
}

static int answer_write(struct text *line) {
    struct header h;
    uint32_t room;
    struct block payload, out;
    if (!read_header(line, &h) || !read_number(line, LARGEST_OUT, &room) || !read_last_bytes(line, &payload)) {
        return 0;
    }
    struct result result = write_frame(h, h.flag, payload, room, &out);
    hold_flag(h, payload, result, out);
    hold_header(h, payload, result, out);
    if (is_done(result)) {
        hold_read_back(h, payload, result, out);
        printf("B %lu %lu ", (unsigned long)result.value, (unsigned long)check_of(out));
        print_bytes(out.data, result.value);
    } else {
        printf("R %lu\n", (unsigned long)result.status);
    }
    free_block(out);
    free_block(payload);
    return 1;
}

/* ---- lines ---- */

static void answer(struct text *line) {
    struct text command;
    int answered = 0;
    if (next_word(line, &command)) {
        if (is_word(command, "read")) {
            answered = answer_read(line);
        } else if (is_word(command, "write")) {
            answered = answer_write(line);
        }
    }
    if (!answered) {
        puts("?");
    }
}

int main(void) {
    return answer_lines(answer);
}
