/*
 * The link's test: creation and calls on lent bytes, made from C by the lines of a script.
 *
 * It reads lines on standard input and answers each on standard output, as docs/DRIVER.md says, for `new` and `call`; any
 * other line is answered `?`. So its answers can be compared with those of any program that speaks these lines. STATE is
 * read off the 2,688 bytes by the layout that tilambok.h documents, with no help of the library.
 * On each line it also holds the calls to what tilambok.h promises, and ends with status 1 and a message where one breaks
 * it. Every lent buffer ends right before a page that may not be touched (script.h).
 */
#define _DEFAULT_SOURCE /* mmap */

#include "script.h"

/* places in a state, and in a row of it */
#define OWNERS 544
#define BLOCKS 256
#define ROWS 800
#define ROW 236
#define ROW_USED 129
#define OPEN_FLAGS 6
#define MESSAGES 29
#define MESSAGE 20

static const uint8_t services[5] = {0x00, 0x07, 0x0A, 0x0B, 0x0F};

/* the link: its state and pool, and the check of the pool, which few calls change */
static int there = 0;
static struct block state;
static struct block pool;
static uint32_t pool_check;

/* ---- the state, as its layout says ---- */

static uint32_t number_at(const uint8_t *bytes, int width) {
    uint32_t number = 0;
    for (int i = width - 1; i >= 0; i--) {
        number = number * 256u + bytes[i];
    }
    return number;
}

static const uint8_t *row_at(int row) {
    return state.data + ROWS + row * ROW;
}

static int owner_of(int row, int place) {
    return 1 + 5 * row + place;
}

static int is_live(const uint8_t *row, int place) {
    return row[OPEN_FLAGS + place] != 0;
}

static unsigned held_by(int row) {
    unsigned held = 0;
    for (int block = 0; block < BLOCKS; block++) {
        int owner = state.data[OWNERS + block];
        held += owner >= owner_of(row, 0) && owner <= owner_of(row, 4);
    }
    return held;
}

static void put_services(const uint8_t *row) {
    printf("07=%lu", (unsigned long)number_at(row + 17, 4));
    if (row[11] != 0) {
        printf("+0a=%lu", (unsigned long)number_at(row + 21, 4));
    }
    if (row[12] != 0) {
        printf("+0b=%lu", (unsigned long)number_at(row + 25, 4));
    }
}

static void put_message(int row, int place) {
    const uint8_t *message = row_at(row) + MESSAGES + place * MESSAGE;
    printf("%02x", services[place]);
    for (int i = 0; i < 5; i++) {
        printf("/%lu", (unsigned long)number_at(message + 4 * i, 4));
    }
    char mark = '/';
    for (int block = 0; block < BLOCKS; block++) {
        if (state.data[OWNERS + block] == owner_of(row, place)) {
            printf("%c%d", mark, block);
            mark = '.';
        }
    }
}

static void put_session(int row) {
    const uint8_t *bytes = row_at(row);
    printf("%u,%lu,%lu,%u,%lu,", bytes[0], (unsigned long)number_at(bytes + 2, 2), (unsigned long)number_at(bytes + 4, 2), bytes[1],
           (unsigned long)number_at(bytes + 13, 4));
    put_services(bytes);
    printf(",%u,", held_by(row));
    int some = 0;
    for (int place = 0; place < 5; place++) {
        if (is_live(bytes, place)) {
            if (some++) {
                putchar('+');
            }
            put_message(row, place);
        }
    }
    if (!some) {
        putchar('-');
    }
}

/* the open sessions by rising id */
static void put_state(void) {
    int some = 0;
    for (int id = 1; id < 256; id++) {
        for (int row = 0; row < 8; row++) {
            if (row_at(row)[0] == id) {
                if (some++) {
                    putchar(';');
                }
                put_session(row);
            }
        }
    }
    if (!some) {
        putchar('-');
    }
}

/* ---- creation ---- */

struct settings {
    uint32_t major, minor, patch, mtu;
};

/* a creation over so many bytes of this filling */
static uint32_t create(struct settings s, size_t length, int fill, struct block *made) {
    *made = new_block(length, fill);
    uint32_t status = tilambok_link_create(made->data, made->length, (uint8_t)s.major, (uint8_t)s.minor, (uint8_t)s.patch, s.mtu);
    hold_cut(status);
    hold(status == TILAMBOK_DONE || status == TILAMBOK_BAD_SETTINGS, "a creation is done, or refused with 10");
    return status;
}

/* a creation that was not refused: settings, and nothing else but 0 */
static void hold_created(struct settings s, struct block made) {
    const uint8_t front[8] = {1,
                              (uint8_t)s.major,
                              (uint8_t)s.minor,
                              (uint8_t)s.patch,
                              (uint8_t)s.mtu,
                              (uint8_t)(s.mtu >> 8),
                              (uint8_t)(s.mtu >> 16),
                              (uint8_t)(s.mtu >> 24)};
    hold(same(made.data, front, sizeof front), "a state begins with layout, version and mtu");
    for (size_t i = sizeof front; i < made.length; i++) {
        hold(made.data[i] == 0, "a new link has no session, and every block is free");
    }
}

/* states of other lengths are refused, and no byte changes */
static void hold_lengths(struct settings s) {
    static const size_t lengths[4] = {0, 8, TILAMBOK_LINK_STATE - 1, TILAMBOK_LINK_STATE + 1};
    for (int i = 0; i < 4; i++) {
        struct block made;
        hold(create(s, lengths[i], FILL, &made) == TILAMBOK_BAD_SETTINGS, "a state of another length is refused");
        hold(untouched(made, 0), "a refused creation wrote");
        free_block(made);
    }
}

static void fill_pool(void) {
    for (size_t i = 0; i < pool.length; i++) {
        pool.data[i] = (uint8_t)(i * 7 + 13);
    }
    pool_check = check_of(pool);
}

static int answer_new(struct text *line) {
    struct settings s;
    struct block other;
    if (!read_number(line, 255, &s.major) || !read_number(line, 255, &s.minor) || !read_number(line, 255, &s.patch) ||
        !read_number(line, UINT32_MAX, &s.mtu) || line->at != NULL) {
        return 0;
    }
    if (there) {
        free_block(state);
    }
    hold_lengths(s);
    uint32_t status = create(s, TILAMBOK_LINK_STATE, FILL, &state);
    hold(create(s, TILAMBOK_LINK_STATE, 0, &other) == status, "what stood in a state changes no answer");
    there = status == TILAMBOK_DONE;
    if (there) {
        hold_created(s, state);
        hold(same(state.data, other.data, state.length), "what stood in a state does not matter");
        fill_pool();
        puts("ok");
    } else {
        hold(untouched(state, 0), "a refused creation wrote");
        free_block(state);
        printf("R %lu\n", (unsigned long)status);
    }
    free_block(other);
    return 1;
}

/* ---- the call ---- */

struct offer {
    uint32_t guarantee, cap, hash;
};

/* what a call told and left in the numbers that were lent to it */
struct report {
    uint32_t status, consumed, value;
    uint8_t service;
};

static struct report call(struct block in_state, struct block in_pool, struct block input, struct block out, struct offer offer) {
    struct block service = new_block(1, FILL), consumed = new_number(), value = new_number();
    struct report report;
    report.status = tilambok_link_call(in_state.data, in_state.length, in_pool.data, in_pool.length, input.data, input.length, out.data, out.length,
                                       (uint16_t)offer.guarantee, (uint16_t)offer.cap, offer.hash, service.data, number_in(consumed), number_in(value));
    report.service = service.data[0];
    report.consumed = *number_in(consumed);
    report.value = *number_in(value);
    hold_cut(report.status);
    int refused = report.status >= 1 && report.status < TILAMBOK_SHORT;
    hold(!refused || untouched(value, 0), "a refusal wrote the value");
    hold((!refused && report.status != TILAMBOK_SHORT) || untouched(consumed, 0), "a refusal or Short wrote the bytes consumed");
    hold(report.status == TILAMBOK_DELIVERED || untouched(service, 0), "only a delivery names a service");
    free_block(service);
    free_block(consumed);
    free_block(value);
    return report;
}

/* the same call refused with 10: the bytes are no state, or the pool has another length; nothing lent changes */
static void hold_refused(struct block in_state, struct block in_pool, struct block input, struct offer offer) {
    struct block old_state = copy_of(in_state.data, in_state.length);
    struct block old_pool = copy_of(in_pool.data, in_pool.length);
    struct block out = new_block(TILAMBOK_LINK_OUT, FILL);
    hold(call(in_state, in_pool, input, out, offer).status == TILAMBOK_BAD_SETTINGS, "no state, or a pool of another length, is refused with 10");
    hold(same(old_state.data, in_state.data, in_state.length), "10 changed the state");
    hold(same(old_pool.data, in_pool.data, in_pool.length), "10 changed the pool");
    hold(untouched(out, 0), "10 changed out");
    free_block(out);
    free_block(old_pool);
    free_block(old_state);
}

/* lengths next to the right ones, and another layout's number */
static void hold_no_state(struct block input, struct offer offer) {
    struct block small_state = copy_of(state.data, TILAMBOK_LINK_STATE - 1), large_state = new_block(TILAMBOK_LINK_STATE + 1, 0);
    struct block small_pool = copy_of(pool.data, TILAMBOK_LINK_POOL - 1), large_pool = new_block(TILAMBOK_LINK_POOL + 1, 0);
    struct block other = copy_of(state.data, state.length);
    memcpy(large_state.data, state.data, state.length);
    other.data[0] = (uint8_t)(2 + line_number % 255);
    hold_refused(small_state, pool, input, offer);
    hold_refused(large_state, pool, input, offer);
    hold_refused(other, pool, input, offer);
    hold_refused(state, small_pool, input, offer);
    hold_refused(state, large_pool, input, offer);
    free_block(other);
    free_block(large_pool);
    free_block(small_pool);
    free_block(large_state);
    free_block(small_state);
}

/* what no call changes: the settings, and every reserved byte */
static void hold_reserved(struct block before) {
    hold(same(before.data, state.data, OWNERS), "a call changed settings or reserved bytes");
    for (int row = 0; row < 8; row++) {
        int at = ROWS + row * ROW + ROW_USED;
        hold(same(before.data + at, state.data + at, ROW - ROW_USED), "a call changed a row's reserved bytes");
    }
}

/* 24 and 25: the one message that the frame names is dropped, its blocks are free, and no other byte changes */
static void hold_dropped(struct block before, struct block input) {
    int place = 0, row = 0;
    while (place < 5 && services[place] != input.data[1]) {
        place++;
    }
    while (row < 8 && row_at(row)[0] != input.data[3]) {
        row++;
    }
    hold(place < 5 && row < 8 && input.data[3] != 0, "24 and 25 name an open session and a service");
    int at = ROWS + row * ROW;
    int message = at + MESSAGES + place * MESSAGE;
    hold(is_live(before.data + at, place) && !is_live(state.data + at, place), "24 and 25 drop an open message");
    for (int i = 0; i < (int)TILAMBOK_LINK_STATE; i++) {
        int owned = i >= OWNERS && i < OWNERS + BLOCKS && before.data[i] == owner_of(row, place);
        int dropped = i == at + OPEN_FLAGS + place || (i >= message && i < message + MESSAGE);
        hold(!owned || state.data[i] == 0, "24 and 25 free the message's blocks");
        hold(owned || dropped || before.data[i] == state.data[i], "24 and 25 change no other message");
    }
}

/* what a call that was refused or Short left */
static void hold_kept(struct report report, struct block before, struct block old_pool, struct block input, struct block out) {
    hold(untouched(out, 0), "a refusal or Short wrote to out");
    hold(same(old_pool.data, pool.data, pool.length), "a refusal or Short wrote to the pool");
    if (report.status == TILAMBOK_BAD_FRAME_NUMBER || report.status == TILAMBOK_BAD_FRAME_SIZE) {
        hold_dropped(before, input);
        return;
    }
    hold(same(before.data, state.data, state.length), "a refusal or Short wrote to the state");
    if (report.status == TILAMBOK_SHORT) {
        hold(report.value > input.length && report.value <= TILAMBOK_LARGEST_FRAME, "Short names more bytes than are there");
    } else {
        hold(report.status <= TILAMBOK_BAD_SIZE || (report.status >= TILAMBOK_BAD_SETTINGS && report.status <= TILAMBOK_BAD_FRAME_SIZE),
             "the link's refusals are 1 to 6 and 10 to 25");
    }
}

/* what an accepted call left */
static void hold_accepted(struct report report, struct block old_pool, struct block input, struct block out) {
    hold(report.consumed >= TILAMBOK_HEADER_1 && report.consumed <= input.length, "a frame that was accepted is all there");
    hold(report.value <= out.length && untouched(out, report.value), "a call wrote past its bytes");
    if (report.status == TILAMBOK_DONE) {
        hold(report.value == 0, "a call that is accepted silently has no bytes");
    } else if (report.status == TILAMBOK_DELIVERED) {
        hold(report.service == input.data[1], "a message's service is its frame's");
        hold(report.value <= TILAMBOK_LARGEST_DATA, "a message is at most 131,072 bytes");
    } else {
        hold(report.value >= TILAMBOK_HEADER_1 && report.value <= TILAMBOK_LINK_OUT, "a reply has a header, and at most 128 bytes");
        hold(same(old_pool.data, pool.data, pool.length), "a reply leaves the pool");
    }
}

/* the infos of an ACK (start, end), a NAK (start, end) and a Heartbeat ACK stand in the reply's third byte */
static void hold_reply(struct report report, struct block out) {
    uint8_t info = report.value > 2 ? out.data[2] : 0;
    if (report.status == TILAMBOK_ACK) {
        hold(info == 0x02 || info == 0x05, "an ACK's info");
    } else if (report.status == TILAMBOK_NAK) {
        hold(info == 0x03 || info == 0x06, "a NAK's info");
    } else if (report.status == TILAMBOK_HEARTBEAT_ACK) {
        hold(info == 0xFF, "a Heartbeat ACK's info");
    }
}

/* a copy of state and pool goes on as they do */
static void hold_copies(struct report report, struct block before, struct block old_pool, struct block input, struct block out, struct offer offer) {
    struct block again = new_block(out.length, FILL);
    struct report other = call(before, old_pool, input, again, offer);
    hold(other.status == report.status && other.consumed == report.consumed && other.value == report.value && other.service == report.service,
         "a copy is answered alike");
    hold(same(before.data, state.data, state.length) && same(old_pool.data, pool.data, pool.length) && same(again.data, out.data, out.length),
         "a call on copies leaves the same bytes");
    free_block(again);
}

static void put_answer(struct report report, struct block out) {
    if (report.status == TILAMBOK_SHORT) {
        printf("S %lu", (unsigned long)report.value);
    } else if (report.status == TILAMBOK_DONE) {
        printf("A %lu", (unsigned long)report.consumed);
    } else if (report.status < TILAMBOK_SHORT) {
        printf("R %lu", (unsigned long)report.status);
    } else {
        printf("%c %lu ", report.status == TILAMBOK_DELIVERED ? 'D' : 'W', (unsigned long)report.consumed);
        if (report.status == TILAMBOK_DELIVERED) {
            printf("%02x ", report.service);
        }
        put_bytes(out.data, report.value);
    }
}

/* one call, held to its promises; the state and pool are those after it */
static void make_call(struct offer offer, struct block input, uint32_t room) {
    struct block before = copy_of(state.data, state.length), old_pool = copy_of(pool.data, pool.length);
    struct block lent = copy_of(input.data, input.length), out = new_block(room, FILL);
    if (line_number % 16 == 0) {
        hold_no_state(input, offer);
    }
    struct report report = call(state, pool, lent, out, offer);
    hold(same(lent.data, input.data, input.length), "a call changed its input");
    hold_reserved(before);
    if (report.status == TILAMBOK_DONE || report.status > TILAMBOK_SHORT) {
        hold_accepted(report, old_pool, input, out);
        hold_reply(report, out);
    } else {
        hold_kept(report, before, old_pool, input, out);
    }
    if (!same(old_pool.data, pool.data, pool.length)) {
        pool_check = check_of(pool);
    }
    hold_copies(report, before, old_pool, input, out, offer);
    put_answer(report, out);
    printf(" out=%lu pool=%lu ", (unsigned long)check_of(out), (unsigned long)pool_check);
    put_state();
    putchar('\n');
    free_block(out);
    free_block(lent);
    free_block(old_pool);
    free_block(before);
}

static int answer_call(struct text *line) {
    struct offer offer;
    uint32_t room;
    struct block input;
    if (!read_number(line, UINT16_MAX, &offer.guarantee) || !read_number(line, UINT16_MAX, &offer.cap) || !read_number(line, UINT32_MAX, &offer.hash) ||
        !read_number(line, LARGEST_OUT, &room) || !read_last_bytes(line, &input)) {
        return 0;
    }
    if (there) {
        make_call(offer, input, room);
    }
    free_block(input);
    return there;
}

/* ---- lines ---- */

static void answer(struct text *line) {
    struct text command;
    int answered = 0;
    if (next_word(line, &command)) {
        if (is_word(command, "new")) {
            answered = answer_new(line);
        } else if (is_word(command, "call")) {
            answered = answer_call(line);
        }
    }
    if (!answered) {
        puts("?");
    }
}

int main(void) {
    pool = new_block(TILAMBOK_LINK_POOL, 0);
    return answer_lines(answer);
}
