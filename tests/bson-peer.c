/*
 * libbson's opinion of control payloads, for tests/bson-peer.
 *
 * Reads lines `payload HEX` and writes for each
 *
 *   validate=X walk=X text=X limit=N T version=V hash=H mtu=M rejected=J
 *
 * validate  what bson_validate says of the whole: ok, bad
 * walk      the same from bson_init_static for each document and bson_iter_next
 *           for each element: ok, or what was refused first: outer (document),
 *           nested (document), element; none if there are no bytes
 * text      whether bson_utf8_validate takes all keys and strings walked over:
 *           ok, or what it did not take: key, string, key+string
 * limit     the first rule of document 01, in byte order, that the walk saw
 *           broken though libbson has no such rule: 30 length, 31 type,
 *           33 depth, 34 known tag; 0 if none
 * T ...     the tags that libbson finds, in DRIVER.md's words; - if walk is not ok
 *
 * No structure is judged here: whether bytes are a document is libbson's word.
 */
#include <bson/bson.h>
#include <inttypes.h>
#include <stdio.h>
#include <stdlib.h>
#include <string.h>

enum { SHORTEST = 5, LONGEST = 1024, DEEPEST = 8 };
enum { LENGTH = 30, TYPE = 31, DEPTH = 33, TAG = 34 };

typedef enum { OK, OUTER, NESTED, ELEMENT } Walk;

static const char *const WALK[] = {"ok", "outer", "nested", "element"};

/* By bad_key + 2 * bad_string. */
static const char *const TEXT[] = {"ok", "key", "string", "key+string"};

typedef struct {
    bool bad_key;
    bool bad_string;
    int limit;    /* see above */
    int times[4]; /* how often each known tag was met */
} Facts;

static const struct {
    const char *name;
    bson_type_t type;
} KNOWN[4] = {
    {"protocolVersion", BSON_TYPE_UTF8},
    {"hashId", BSON_TYPE_INT32},
    {"mtu", BSON_TYPE_INT64},
    {"rejectedParams", BSON_TYPE_ARRAY},
};

static void note_limit(Facts *facts, int limit)
{
    if (facts->limit == 0)
        facts->limit = limit;
}

/* "Read types: 01, 02, 03, 04, 08 (0 or 1), 0A, 10, 12 (hex)." */
static bool type_read(bson_type_t type)
{
    switch (type) {
    case BSON_TYPE_DOUBLE:
    case BSON_TYPE_UTF8:
    case BSON_TYPE_DOCUMENT:
    case BSON_TYPE_ARRAY:
    case BSON_TYPE_BOOL:
    case BSON_TYPE_NULL:
    case BSON_TYPE_INT32:
    case BSON_TYPE_INT64:
        return true;
    default:
        return false;
    }
}

/* "known tag twice or of another type" */
static void note_tag(Facts *facts, const bson_iter_t *iter)
{
    for (int i = 0; i < 4; i++) {
        if (strcmp(bson_iter_key(iter), KNOWN[i].name) != 0)
            continue;
        if (facts->times[i]++ > 0 || bson_iter_type(iter) != KNOWN[i].type)
            note_limit(facts, TAG);
    }
}

static void note_text(Facts *facts, const bson_iter_t *iter)
{
    const char *key = bson_iter_key(iter);
    if (!bson_utf8_validate(key, strlen(key), false))
        facts->bad_key = true;
    if (BSON_ITER_HOLDS_UTF8(iter)) {
        uint32_t length;
        const char *text = bson_iter_utf8(iter, &length);
        if (!bson_utf8_validate(text, length, true))
            facts->bad_string = true;
    }
}

/* The bytes of a nested document or array. */
static const uint8_t *nested(const bson_iter_t *iter, uint32_t *length)
{
    const uint8_t *data = NULL;
    if (BSON_ITER_HOLDS_DOCUMENT(iter))
        bson_iter_document(iter, length, &data);
    else
        bson_iter_array(iter, length, &data);
    return data;
}

static Walk walk(Facts *facts, const uint8_t *data, size_t length, int depth);

static Walk walk_nested(Facts *facts, const bson_iter_t *iter, int depth)
{
    if (depth > DEEPEST)
        note_limit(facts, DEPTH);
    uint32_t length = 0;
    const uint8_t *data = nested(iter, &length);
    return walk(facts, data, length, depth);
}

/* Whether libbson takes these bytes for a document at this depth. */
static Walk walk(Facts *facts, const uint8_t *data, size_t length, int depth)
{
    bson_t document;
    bson_iter_t iter;
    if (!bson_init_static(&document, data, length) || !bson_iter_init(&iter, &document))
        return depth == 1 ? OUTER : NESTED;
    while (bson_iter_next(&iter)) {
        note_text(facts, &iter);
        if (!type_read(bson_iter_type(&iter)))
            note_limit(facts, TYPE);
        else if (depth == 1)
            note_tag(facts, &iter);
        if (!BSON_ITER_HOLDS_DOCUMENT(&iter) && !BSON_ITER_HOLDS_ARRAY(&iter))
            continue;
        Walk inside = walk_nested(facts, &iter, depth + 1);
        if (inside != OK)
            return inside;
    }
    /* bson_iter_next tells a fault from the end by this field alone. */
    return iter.err_off == 0 ? OK : ELEMENT;
}

/* 30, which is a matter of the length field alone. */
static bool length_kept(const uint8_t *data, size_t length)
{
    if (length < SHORTEST || length > LONGEST)
        return false;
    size_t field = data[0] | data[1] << 8 | data[2] << 16 | (size_t)data[3] << 24;
    return field == length;
}

static bool validated(const uint8_t *data, size_t length)
{
    bson_t document;
    return bson_init_static(&document, data, length) &&
           bson_validate(&document, BSON_VALIDATE_NONE, NULL);
}

static bool found(bson_iter_t *iter, const bson_t *document, int tag)
{
    return bson_iter_init_find(iter, document, KNOWN[tag].name) &&
           bson_iter_type(iter) == KNOWN[tag].type;
}

static void print_version(const bson_t *document)
{
    bson_iter_t iter;
    if (!found(&iter, document, 0)) {
        fputs("-", stdout);
        return;
    }
    uint32_t length;
    const char *text = bson_iter_utf8(&iter, &length);
    for (uint32_t i = 0; i < length; i++)
        printf("%02x", (unsigned char)text[i]);
}

static void print_tags(const uint8_t *data, size_t length)
{
    bson_t document;
    bson_iter_t iter;
    if (!bson_init_static(&document, data, length)) {
        puts("-");
        return;
    }
    fputs("T version=", stdout);
    print_version(&document);
    if (found(&iter, &document, 1))
        printf(" hash=%" PRIu32, (uint32_t)bson_iter_int32(&iter));
    else
        fputs(" hash=-", stdout);
    if (found(&iter, &document, 2))
        printf(" mtu=%" PRIu64, (uint64_t)bson_iter_int64(&iter));
    else
        fputs(" mtu=-", stdout);
    puts(found(&iter, &document, 3) ? " rejected=1" : " rejected=-");
}

static void judge(const uint8_t *data, size_t length)
{
    Facts facts = {0};
    if (length == 0) {
        puts("validate=none walk=none text=ok limit=0 -");
        return;
    }
    if (!length_kept(data, length))
        note_limit(&facts, LENGTH);
    Walk walked = walk(&facts, data, length, 1);
    printf("validate=%s walk=%s text=%s limit=%d ", validated(data, length) ? "ok" : "bad",
           WALK[walked], TEXT[facts.bad_key + 2 * facts.bad_string], facts.limit);
    if (walked == OK)
        print_tags(data, length);
    else
        puts("-");
}

/* Reads `payload HEX` into new memory; NULL if it is something else. Its size
   is exactly the payload's, so that a checker sees every read past the end. */
static uint8_t *payload(const char *line, size_t *length)
{
    char *hex = malloc(strlen(line) + 1);
    if (hex == NULL || sscanf(line, "payload %s", hex) != 1)
        exit(3);
    *length = strcmp(hex, "-") == 0 ? 0 : strlen(hex) / 2;
    uint8_t *data = malloc(*length);
    for (size_t i = 0; i < *length; i++) {
        if (data == NULL || sscanf(hex + 2 * i, "%2hhx", &data[i]) != 1)
            exit(3);
    }
    free(hex);
    return data;
}

int main(void)
{
    char *line = NULL;
    size_t room = 0;
    while (getline(&line, &room, stdin) > 0) {
        size_t length;
        uint8_t *data = payload(line, &length);
        judge(data, length);
        free(data);
    }
    free(line);
    return 0;
}
