/*
 * What the tests in C share: buffers whose end is watched, the words of a script's lines (docs/DRIVER.md), and answers. A program includes it once, behind
 * `#define _DEFAULT_SOURCE` for mmap.
 *
 * Every lent buffer ends right before a page that may not be touched: an archive's own code is not compiled for the address sanitizer, which would see a byte
 * too many in the test's own files only, but there it stops at a signal.
 */
#ifndef TILAMBOK_SCRIPT_H
#define TILAMBOK_SCRIPT_H

#include "tilambok.h"

#include <stdio.h>
#include <stdlib.h>
#include <string.h>
#include <sys/mman.h>
#include <unistd.h>

#define LONGEST_LINE 300000
#define LARGEST_OUT 131084
#define FILL 0xEE

static unsigned long line_number = 0;

static inline void hold(int fact, const char *promise) {
    if (!fact) {
        fflush(stdout);
        fprintf(stderr, "line %lu: %s\n", line_number, promise);
        exit(1);
    }
}

/* ---- lent buffers ---- */

struct block {
    uint8_t *data; /* never null, also where length is 0 */
    size_t length;
};

/* whole pages for so many bytes, without the page behind them */
static inline size_t paged(size_t length) {
    size_t page = (size_t)sysconf(_SC_PAGESIZE);
    return (length + page - 1) / page * page;
}

/* The bytes before the block, in its first page, are 0 and stay so: see free_block. */
static inline struct block new_block(size_t length, int fill) {
    size_t inside = paged(length);
    uint8_t *base = mmap(NULL, inside + paged(1), PROT_READ | PROT_WRITE, MAP_PRIVATE | MAP_ANONYMOUS, -1, 0);
    hold(base != MAP_FAILED && mprotect(base + inside, paged(1), PROT_NONE) == 0, "no memory is left");
    struct block block = {base + (inside - length), length};
    memset(block.data, fill, length);
    return block;
}

static inline struct block copy_of(const uint8_t *bytes, size_t length) {
    struct block block = new_block(length, 0);
    memcpy(block.data, bytes, length);
    return block;
}

static inline void free_block(struct block block) {
    size_t inside = paged(block.length);
    uint8_t *base = block.data - (inside - block.length);
    for (uint8_t *before = base; before < block.data; before++) {
        hold(*before == 0, "a byte before a lent buffer was written");
    }
    munmap(base, inside + paged(1));
}

static inline int same(const uint8_t *a, const uint8_t *b, size_t length) {
    return memcmp(a, b, length) == 0;
}

/* whether every byte from `from` on is as it was filled */
static inline int untouched(struct block block, size_t from) {
    for (size_t i = from; i < block.length; i++) {
        if (block.data[i] != FILL) {
            return 0;
        }
    }
    return 1;
}

/* ---- words of a line ---- */

struct text {
    const char *at;
    const char *end;
};

/* the next word, up to a space or the end; 0 where the line has no more */
static inline int next_word(struct text *line, struct text *word) {
    if (line->at == NULL) {
        return 0;
    }
    const char *stop = memchr(line->at, ' ', (size_t)(line->end - line->at));
    word->at = line->at;
    word->end = stop == NULL ? line->end : stop;
    line->at = stop == NULL ? NULL : stop + 1;
    return 1;
}

static inline int is_word(struct text word, const char *name) {
    size_t length = strlen(name);
    return (size_t)(word.end - word.at) == length && memcmp(word.at, name, length) == 0;
}

static inline int read_number(struct text *line, uint32_t most, uint32_t *number) {
    struct text word;
    uint64_t value = 0;
    if (!next_word(line, &word) || word.at == word.end) {
        return 0;
    }
    for (const char *c = word.at; c < word.end; c++) {
        if (*c < '0' || *c > '9') {
            return 0;
        }
        value = value * 10 + (uint64_t)(*c - '0');
        if (value > most) {
            return 0;
        }
    }
    *number = (uint32_t)value;
    return 1;
}

static inline int hex_digit(char c) {
    if (c >= '0' && c <= '9') {
        return c - '0';
    }
    return c >= 'a' && c <= 'f' ? c - 'a' + 10 : -1;
}

/* a word as bytes; the caller frees them where this is 1 */
static inline int read_bytes(struct text *line, struct block *bytes) {
    struct text word;
    if (!next_word(line, &word)) {
        return 0;
    }
    if (is_word(word, "-")) {
        *bytes = new_block(0, 0);
        return 1;
    }
    size_t digits = (size_t)(word.end - word.at);
    if (digits == 0 || digits % 2 != 0) {
        return 0;
    }
    *bytes = new_block(digits / 2, 0);
    for (size_t i = 0; i < digits; i += 2) {
        int high = hex_digit(word.at[i]);
        int low = hex_digit(word.at[i + 1]);
        if (high < 0 || low < 0) {
            free_block(*bytes);
            return 0;
        }
        bytes->data[i / 2] = (uint8_t)(high * 16 + low);
    }
    return 1;
}

/* the last word as bytes */
static inline int read_last_bytes(struct text *line, struct block *bytes) {
    struct text rest = *line;
    struct text word;
    return next_word(&rest, &word) && rest.at == NULL && read_bytes(line, bytes);
}

/* ---- answers ---- */

static inline void put_bytes(const uint8_t *bytes, size_t length) {
    if (length == 0) {
        putchar('-');
    }
    for (size_t i = 0; i < length; i++) {
        putchar("0123456789abcdef"[bytes[i] / 16]);
        putchar("0123456789abcdef"[bytes[i] % 16]);
    }
}

static inline void print_bytes(const uint8_t *bytes, size_t length) {
    put_bytes(bytes, length);
    putchar('\n');
}

static inline uint32_t check_of(struct block block) {
    uint32_t check = 7;
    for (size_t i = 0; i < block.length; i++) {
        check = check * 31u + block.data[i];
    }
    return check;
}

/* ---- results ---- */

/* what a call told: its status, and the lent number after it */
struct result {
    uint32_t status, value;
};

/* the number to lend: four bytes, filled, right before a page that may not be touched */
static inline struct block new_number(void) {
    return new_block(sizeof(uint32_t), FILL);
}

static inline uint32_t *number_in(struct block number) {
    return (uint32_t *)(void *)number.data;
}

static inline int is_done(struct result result) {
    return result.status == TILAMBOK_DONE;
}

static inline int is_short(struct result result) {
    return result.status == TILAMBOK_SHORT;
}

static inline int is_refusal(struct result result, uint32_t number) {
    return result.status == number;
}

static inline int same_result(struct result a, struct result b) {
    return a.status == b.status && a.value == b.value;
}

/* A status that the caller keeps in too small a variable, without a warning, is no success unless it is one. */
static inline void hold_cut(uint32_t status) {
    int cut = status;
    uint8_t byte = status;
    int8_t signed_byte = status;
    int done = status == TILAMBOK_DONE;
    hold((cut == 0) == done && (byte == 0) == done && (signed_byte == 0) == done, "a status cut to an int or to one byte is 0 only where it is 0");
    hold(status <= TILAMBOK_DELIVERED && (uint32_t)cut == status && byte == status, "a status is at most 132, and cut it is the same number");
}

/* the result of a call that was lent this number, which goes; a refusal leaves it as it was filled */
static inline struct result told(uint32_t status, struct block number) {
    struct result result = {status, *number_in(number)};
    hold_cut(status);
    hold(status <= TILAMBOK_SHORT, "only the link's statuses are above 128");
    hold(is_done(result) || is_short(result) || untouched(number, 0), "a refusal wrote the value");
    free_block(number);
    return result;
}

/* ---- lines ---- */

/* answers a line that is neither empty nor a comment; one that is too long is no command */
static inline void answer_line(void (*answer)(struct text *line), const char *bytes, size_t length) {
    struct text line = {bytes, bytes + length};
    if (length == 0 || bytes[0] == '#') {
        return;
    }
    if (length > LONGEST_LINE) {
        puts("?");
        return;
    }
    answer(&line);
}

/* Answers each line of standard input. A line is kept up to one byte more than the longest, so that a longer one is known as such. */
static inline int answer_lines(void (*answer)(struct text *line)) {
    static char line[LONGEST_LINE + 1];
    size_t length = 0;
    int c;
    while ((c = getchar()) != EOF) {
        if (c == '\n') {
            line_number++;
            answer_line(answer, line, length);
            length = 0;
        } else if (length < sizeof line) {
            line[length++] = (char)c;
        }
    }
    if (length != 0) {
        line_number++;
        answer_line(answer, line, length);
    }
    return 0;
}

#endif
