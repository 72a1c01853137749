/*
 * The RPC smoke tester's test: the functions on RPC payloads, called from C on the lines of a script.
 *
 * It reads lines on standard input and answers each on standard output, as docs/DRIVER.md says, for `rpc` and `rpcwrite`;
 * any other line is answered `?`. So its answers can be compared with those of any program that speaks these lines.
 * On each line it also holds the calls to what tilambok.h promises, and ends with status 1 and a message where one breaks
 * it. Every lent buffer ends right before a page that may not be touched (script.h).
 */
#define _DEFAULT_SOURCE /* mmap */

#include "script.h"

/* a number that names no form, another one on each line */
static uint8_t no_form(void) {
    return (uint8_t)(3 + line_number % 253);
}

static int read_form(struct text *line, uint32_t *form) {
    struct text word;
    if (!next_word(line, &word)) {
        return 0;
    }
    *form = is_word(word, "rpc") ? TILAMBOK_RPC : is_word(word, "bulk") ? TILAMBOK_BULK : TILAMBOK_QUERY;
    return *form != TILAMBOK_QUERY || is_word(word, "query");
}

/* ---- forms ---- */

static void hold_forms(void) {
    for (unsigned service = 0; service < 256; service++) {
        struct block number = new_number();
        struct result result = told(tilambok_rpc_form((uint8_t)service, number_in(number)), number);
        int form = service == 0x07 ? TILAMBOK_RPC : service == 0x0F ? TILAMBOK_BULK : service == 0x00 ? TILAMBOK_QUERY : -1;
        if (form >= 0) {
            hold(is_done(result) && result.value == (uint32_t)form, "services 07, 0F and 00 have their forms");
        } else {
            hold(is_refusal(result, TILAMBOK_BAD_SETTINGS), "no other service has a form");
        }
    }
}

/* ---- the reader ---- */

/* reads with `room` bytes of fields and looks at what does not depend on the answer; the caller frees the fields */
static struct result read_with(uint32_t form, uint32_t version, struct block bytes, size_t room, struct block *fields) {
    struct block lent = copy_of(bytes.data, bytes.length);
    *fields = new_block(room, FILL);
    struct block number = new_number();
    struct result result =
        told(tilambok_read_rpc((uint8_t)form, (uint8_t)version, lent.data, lent.length, fields->data, fields->length, number_in(number)), number);
    hold(same(lent.data, bytes.data, bytes.length), "the reader changed its input");
    hold(!is_short(result), "a payload is never Short");
    hold(untouched(*fields, is_done(result) ? TILAMBOK_RPC_FIELDS : 0), "the reader wrote past the fields, or refused and wrote");
    free_block(lent);
    return result;
}

/* what the fields say of each other, and of the bytes that were read */
static void hold_fields(uint32_t form, uint32_t version, struct block bytes, struct result result, const uint8_t *fields) {
    static const uint8_t none[TILAMBOK_RPC_FIELDS] = {0};
    uint32_t size = tilambok_field_u32(fields + TILAMBOK_RPC_AT_JSON_SIZE);
    hold(result.value == fields[TILAMBOK_RPC_AT_JSON_START], "the value is where the JSON begins");
    if (form == TILAMBOK_RPC && version == 1) {
        hold(same(fields, none, TILAMBOK_RPC_FIELDS), "without a header each field is 0");
        return;
    }
    hold(fields[TILAMBOK_RPC_AT_HEADER] == 1, "there is a header");
    hold(fields[TILAMBOK_RPC_AT_JSON_START] == TILAMBOK_RPC_HEADER, "the JSON begins behind the header");
    hold(fields[TILAMBOK_RPC_AT_ZERO] == 0, "the spare field is 0");
    hold(TILAMBOK_RPC_HEADER <= bytes.length && size <= bytes.length - TILAMBOK_RPC_HEADER, "the JSON is all there");
    hold(form != TILAMBOK_RPC || size == bytes.length - TILAMBOK_RPC_HEADER, "nothing follows the JSON in the RPC form");
}

/* one reading by four lengths of fields, and one in no form; the 16 bytes of fields go to `fields` */
static struct result read_rpc(uint32_t form, uint32_t version, struct block bytes, uint8_t *fields) {
    static const size_t rooms[4] = {TILAMBOK_RPC_FIELDS, 20, 15, 0};
    struct result first = {0, 0};
    struct block lent;
    for (int i = 0; i < 4; i++) {
        struct result result = read_with(form, version, bytes, rooms[i], &lent);
        if (i == 0) {
            first = result;
            memcpy(fields, lent.data, TILAMBOK_RPC_FIELDS);
        } else if (is_done(first) && rooms[i] < TILAMBOK_RPC_FIELDS) {
            hold(is_refusal(result, TILAMBOK_TOO_SMALL), "a payload without room for its fields is refused with 11");
        } else {
            hold(same_result(result, first), "room past the fields changes no answer");
            hold(rooms[i] < TILAMBOK_RPC_FIELDS || same(fields, lent.data, TILAMBOK_RPC_FIELDS), "room past the fields changes no field");
        }
        free_block(lent);
    }
    hold(is_refusal(read_with(no_form(), version, bytes, 15, &lent), TILAMBOK_BAD_SETTINGS), "a form that there is not is refused with 10, first");
    free_block(lent);
    if (is_done(first)) {
        hold_fields(form, version, bytes, first, fields);
    }
    return first;
}

/* where JSON and bulk data are in a payload that was read */
struct parts {
    size_t json, json_length, bulk_length;
};

static struct parts parts_of(struct block bytes, const uint8_t *fields) {
    struct parts p = {fields[TILAMBOK_RPC_AT_JSON_START], bytes.length, 0};
    if (fields[TILAMBOK_RPC_AT_HEADER] == 1) {
        p.json_length = tilambok_field_u32(fields + TILAMBOK_RPC_AT_JSON_SIZE);
        p.bulk_length = bytes.length - p.json - p.json_length;
    }
    return p;
}

/* bytes of an answer, with a blank and not a newline behind them */
static void print_part(const uint8_t *bytes, size_t length) {
    putchar(' ');
    if (length == 0) {
        putchar('-');
    }
    for (size_t i = 0; i < length; i++) {
        printf("%02x", bytes[i]);
    }
}

/* ---- the writer ---- */

struct header {
    uint32_t form, version, type, id, number, size;
};

/* writes to a new buffer and looks at what does not depend on the answer; the caller frees the buffer */
static struct result write_rpc(struct header h, struct block json, struct block bulk, size_t room, struct block *out) {
    struct block text = copy_of(json.data, json.length);
    struct block data = copy_of(bulk.data, bulk.length);
    *out = new_block(room, FILL);
    struct block number = new_number();
    struct result result = told(tilambok_write_rpc((uint8_t)h.form, (uint8_t)h.version, (uint8_t)h.type, h.id, h.number, h.size, text.data, text.length,
                                                   data.data, data.length, out->data, out->length, number_in(number)),
                                number);
    size_t end = is_done(result) ? result.value + json.length + bulk.length : 0;
    hold(same(text.data, json.data, json.length), "the writer changed its JSON");
    hold(same(data.data, bulk.data, bulk.length), "the writer changed its bulk data");
    hold(!is_short(result), "a writer is never Short");
    hold(end <= room, "the writer wrote more than there is room for");
    hold(untouched(*out, end), "the writer wrote past its bytes, or refused and wrote");
    free_block(text);
    free_block(data);
    return result;
}

/* what was written is read back as that header, JSON and bulk data; at version 1's RPC as the JSON alone */
static void hold_read_back(struct header h, struct block json, struct block bulk, struct block out, struct result result) {
    uint8_t fields[TILAMBOK_RPC_FIELDS];
    struct block bytes = copy_of(out.data, result.value + json.length + bulk.length);
    hold(same_result(read_rpc(h.form, h.version, bytes, fields), result), "what was written is read back, and its JSON begins where it was written");
    struct parts p = parts_of(bytes, fields);
    hold(p.json_length == json.length && same(bytes.data + p.json, json.data, json.length), "the JSON is read back");
    hold(p.bulk_length == bulk.length && same(bytes.data + p.json + p.json_length, bulk.data, bulk.length), "the bulk data is read back");
    if (fields[TILAMBOK_RPC_AT_HEADER] == 1) {
        hold(fields[TILAMBOK_RPC_AT_TYPE] == h.type, "the type is read back");
        hold(tilambok_field_u32(fields + TILAMBOK_RPC_AT_ID) == h.id, "the id is read back");
        hold(tilambok_field_u32(fields + TILAMBOK_RPC_AT_NUMBER) == h.number, "the number is read back");
        hold(tilambok_field_u32(fields + TILAMBOK_RPC_AT_JSON_SIZE) == h.size, "the JSON size is read back");
    }
    free_block(bytes);
}

/* what was read is written as the same bytes */
static void hold_written_again(uint32_t form, uint32_t version, struct block bytes, const uint8_t *fields) {
    struct header h = {form,
                       version,
                       fields[TILAMBOK_RPC_AT_TYPE],
                       tilambok_field_u32(fields + TILAMBOK_RPC_AT_ID),
                       tilambok_field_u32(fields + TILAMBOK_RPC_AT_NUMBER),
                       tilambok_field_u32(fields + TILAMBOK_RPC_AT_JSON_SIZE)};
    struct parts p = parts_of(bytes, fields);
    struct block json = copy_of(bytes.data + p.json, p.json_length);
    struct block bulk = copy_of(bytes.data + p.json + p.json_length, p.bulk_length);
    struct block out;
    hold(is_done(write_rpc(h, json, bulk, bytes.length, &out)), "what was read is written again");
    hold(same(out.data, bytes.data, bytes.length), "as the same bytes");
    free_block(out);
    free_block(json);
    free_block(bulk);
}

/* ---- lines ---- */

/* `P type id number size JSON BULK`, the numbers `-` where there is no header */
static void print_payload(struct block bytes, const uint8_t *fields) {
    struct parts p = parts_of(bytes, fields);
    if (fields[TILAMBOK_RPC_AT_HEADER] == 1) {
        printf("P %u %lu %lu %lu", fields[TILAMBOK_RPC_AT_TYPE], (unsigned long)tilambok_field_u32(fields + TILAMBOK_RPC_AT_ID),
               (unsigned long)tilambok_field_u32(fields + TILAMBOK_RPC_AT_NUMBER),
               (unsigned long)tilambok_field_u32(fields + TILAMBOK_RPC_AT_JSON_SIZE));
    } else {
        printf("P - - - -");
    }
    print_part(bytes.data + p.json, p.json_length);
    print_part(bytes.data + p.json + p.json_length, p.bulk_length);
    putchar('\n');
}

/* rpc FORM version HEX */
static int answer_rpc(struct text *line) {
    uint8_t fields[TILAMBOK_RPC_FIELDS];
    uint32_t form, version;
    struct block bytes;
    if (!read_form(line, &form) || !read_number(line, 255, &version) || !read_last_bytes(line, &bytes)) {
        return 0;
    }
    struct result result = read_rpc(form, version, bytes, fields);
    if (is_done(result)) {
        hold_written_again(form, version, bytes, fields);
        print_payload(bytes, fields);
    } else {
        printf("R %lu\n", (unsigned long)result.status);
    }
    free_block(bytes);
    return 1;
}

static int read_header(struct text *line, struct header *h) {
    return read_form(line, &h->form) && read_number(line, 255, &h->version) && read_number(line, 255, &h->type) &&
           read_number(line, UINT32_MAX, &h->id) && read_number(line, UINT32_MAX, &h->number) && read_number(line, UINT32_MAX, &h->size);
}

static void answer_written(struct header h, struct block json, struct block bulk, size_t room) {
    struct block out, other;
    struct result result = write_rpc(h, json, bulk, room, &out);
    struct header none = h;
    none.form = no_form();
    hold(is_refusal(write_rpc(none, json, bulk, room, &other), TILAMBOK_BAD_SETTINGS), "a form that there is not is refused with 10, first");
    if (is_done(result)) {
        size_t end = result.value + json.length + bulk.length;
        hold_read_back(h, json, bulk, out, result);
        printf("B %lu %lu ", (unsigned long)end, (unsigned long)check_of(out));
        print_bytes(out.data, end);
    } else {
        printf("R %lu\n", (unsigned long)result.status);
    }
    free_block(out);
    free_block(other);
}

/* rpcwrite FORM version type id number size OUTLEN JSON BULK */
static int answer_rpcwrite(struct text *line) {
    struct header h;
    uint32_t room;
    struct block json, bulk;
    if (!read_header(line, &h) || !read_number(line, LARGEST_OUT, &room) || !read_bytes(line, &json)) {
        return 0;
    }
    int readable = read_last_bytes(line, &bulk);
    if (readable) {
        answer_written(h, json, bulk, room);
        free_block(bulk);
    }
    free_block(json);
    return readable;
}

static void answer(struct text *line) {
    struct text command;
    int answered = 0;
    if (next_word(line, &command)) {
        if (is_word(command, "rpc")) {
            answered = answer_rpc(line);
        } else if (is_word(command, "rpcwrite")) {
            answered = answer_rpcwrite(line);
        }
    }
    if (!answered) {
        puts("?");
    }
}

int main(void) {
    hold_forms();
    return answer_lines(answer);
}
