/* Bytes as words, and a map as JSON or CSV. One rule for all: text, or hex digits after 'hex:' where bytes aren't printable or could be taken for hex. */
#include "floatstore_tool.h"
#include <errno.h>
#include <stdlib.h>
#include <string.h>

uint64_t number_of(const char *word, const char *what) {
    char *end;
    errno = 0;
    unsigned long long n = strtoull(word, &end, strncmp(word, "0x", 2) == 0 ? 16 : 10);
    if (*word < '0' || *word > '9' || *end || errno) die(MISUSED, "'%s' is no number of %s", word, what);
    return n;
}

/* ---- words to bytes */

static int hex_digit(int c) {
    if (c >= '0' && c <= '9') return c - '0';
    if (c >= 'a' && c <= 'f') return c - 'a' + 10;
    return c >= 'A' && c <= 'F' ? c - 'A' + 10 : -1;
}

/* In place: what begins with hex: becomes its bytes. */
static void take_hex(struct bytes *b) {
    if (b->len < 4 || memcmp(b->at, "hex:", 4) != 0) return;
    if (b->len % 2) die(MISUSED, "'%.*s': hex digits come in pairs", (int)b->len, (const char *)b->at);
    for (size_t i = 4; i < b->len; i++)
        if (hex_digit(b->at[i]) < 0) die(MISUSED, "'%.*s': not hex digits", (int)b->len, (const char *)b->at);
    b->len = (b->len - 4) / 2;
    for (size_t i = 0; i < b->len; i++) b->at[i] = (uint8_t)(16 * hex_digit(b->at[4 + 2 * i]) + hex_digit(b->at[5 + 2 * i]));
}

struct bytes bytes_of(const char *word) {
    struct bytes b = {strlen(word), room_for(strlen(word) + 1)};
    memcpy(b.at, word, b.len);
    take_hex(&b);
    return b;
}

struct bytes all_of(const char *name) {
    FILE *file = strcmp(name, "-") == 0 ? stdin : fopen(name, "rb");
    if (!file) die(REFUSED, "%s: %s", name, strerror(errno));
    size_t room = 1 << 16, len = 0, n;
    uint8_t *at = room_for(room);
    while ((n = fread(at + len, 1, room - len, file)) > 0) {
        len += n;
        if (len == room && !(at = realloc(at, room *= 2))) die(REFUSED, "no memory");
    }
    if (ferror(file)) die(REFUSED, "%s: %s", name, strerror(errno));
    if (file != stdin) fclose(file);
    return (struct bytes){len, at};
}

/* A value that begins with @ is given with one more @, and '-' as hex:2d. */
struct bytes value_of(const char *word) {
    if (strcmp(word, "-") == 0) return all_of(word);
    if (word[0] == '@') return word[1] == '@' ? bytes_of(word + 1) : all_of(word + 1);
    return bytes_of(word);
}

/* ---- bytes to words */

static int is_text(const uint8_t *at, size_t len) {
    int text = !(len >= 4 && memcmp(at, "hex:", 4) == 0);
    for (size_t i = 0; i < len; i++) text = text && at[i] >= ' ' && at[i] <= '~';
    return text;
}

/* A byte of text that a form writes otherwise has this before it: JSON's backslash, CSV's second quote. */
static void show_with(const uint8_t *at, size_t len, const char *special, char before) {
    int text = is_text(at, len);
    if (!text) fputs("hex:", stdout);
    for (size_t i = 0; i < len; i++) {
        if (!text) printf("%02x", at[i]);
        else if (strchr(special, at[i])) putchar(before), putchar(at[i]);
        else putchar(at[i]);
    }
}

void show(const uint8_t *at, size_t len) { show_with(at, len, "", 0); }

/* ---- a map written */

static size_t written;

void begin_entries(void) {
    written = 0;
    fputs(option.csv ? "key,value\n" : "[", stdout);
}

void write_entry(const uint8_t *key, size_t key_len, const uint8_t *value, size_t len) {
    const char *special = option.csv ? "\"" : "\"\\";
    char before = option.csv ? '"' : '\\';
    fputs(option.csv ? "\"" : written ? ",\n {\"key\": \"" : "\n {\"key\": \"", stdout);
    show_with(key, key_len, special, before);
    fputs(option.csv ? "\",\"" : "\", \"value\": \"", stdout);
    show_with(value, len, special, before);
    fputs(option.csv ? "\"\n" : "\"}", stdout);
    written++;
}

void end_entries(void) {
    if (!option.csv) fputs(written ? "\n]\n" : "]\n", stdout);
}

/* ---- a map read: the text, how far it is read, and the line for whoever must mend it */

struct cursor {
    struct bytes text;
    size_t at, line;
};

static _Noreturn void die_at(const struct cursor *c, const char *what) { die(MISUSED, "line %zu: %s", c->line, what); }
static int here(const struct cursor *c) { return c->at < c->text.len ? c->text.at[c->at] : EOF; }
static int take(struct cursor *c) {
    int byte = here(c);
    if (byte == '\n') c->line++;
    if (byte != EOF) c->at++;
    return byte;
}
static int take_if(struct cursor *c, int byte) { return here(c) == byte ? take(c), 1 : 0; }

static struct bytes new_word(const struct cursor *c) { return (struct bytes){0, room_for(c->text.len - c->at + 1)}; }
static void add(struct bytes *word, int byte) { word->at[word->len++] = (uint8_t)byte; }
static struct bytes finished(struct bytes word) {
    word.at = realloc(word.at, word.len + 1);
    if (!word.at) die(REFUSED, "no memory");
    take_hex(&word);
    return word;
}

/* CSV: what stands between commas, or between quotes, of which a pair is one. */
static struct bytes csv_word(struct cursor *c) {
    struct bytes word = new_word(c);
    if (!take_if(c, '"')) {
        while (here(c) != ',' && here(c) != '\n' && here(c) != '\r' && here(c) != EOF) add(&word, take(c));
        return finished(word);
    }
    for (;;) {
        int byte = take(c);
        if (byte == EOF) die_at(c, "a quote has no end");
        if (byte == '"' && !take_if(c, '"')) return finished(word);
        add(&word, byte);
    }
}

static void csv_line(struct cursor *c, struct bytes *key, struct bytes *value) {
    *key = csv_word(c);
    if (!take_if(c, ',')) die_at(c, "a line has a key, a comma and a value");
    *value = csv_word(c);
    take_if(c, '\r');
    if (here(c) != EOF && !take_if(c, '\n')) die_at(c, "a line has a key, a comma and a value");
}

static void read_csv(struct cursor *c, entry *each) {
    struct bytes key, value;
    csv_line(c, &key, &value);
    if (key.len != 3 || memcmp(key.at, "key", 3) != 0 || value.len != 5 || memcmp(value.at, "value", 5) != 0) {
        c->line = 1;
        die_at(c, "the first line must be key,value");
    }
    while (here(c) != EOF) {
        csv_line(c, &key, &value);
        each(key.at, key.len, value.at, value.len);
        free(key.at), free(value.at);
    }
}

/* JSON: a list of objects with two strings. */
static void blanks(struct cursor *c) {
    while (here(c) == ' ' || here(c) == '\t' || here(c) == '\n' || here(c) == '\r') take(c);
}
static void want(struct cursor *c, char byte) {
    char words[] = "' ' is missing";
    words[1] = byte;
    blanks(c);
    if (!take_if(c, byte)) die_at(c, words);
}

static uint32_t four_digits(struct cursor *c) {
    uint32_t n = 0;
    for (int i = 0; i < 4; i++) {
        int digit = hex_digit(take(c));
        if (digit < 0) die_at(c, "\\u needs four hex digits");
        n = 16 * n + (uint32_t)digit;
    }
    return n;
}

/* A character outside ASCII becomes its bytes in UTF-8; those above 0xFFFF come as two halves. */
static void add_character(struct cursor *c, struct bytes *word) {
    uint32_t n = four_digits(c);
    if (n >= 0xD800 && n < 0xDC00) {
        if (!take_if(c, '\\') || !take_if(c, 'u')) die_at(c, "half a character");
        n = 0x10000 + ((n - 0xD800) << 10) + (four_digits(c) - 0xDC00);
    }
    if (n > 0x10FFFF || (n >= 0xD800 && n < 0xE000)) die_at(c, "half a character");
    if (n < 0x80) add(word, (int)n);
    else if (n < 0x800) add(word, 0xC0 | n >> 6), add(word, 0x80 | (n & 63));
    else if (n < 0x10000) add(word, 0xE0 | n >> 12), add(word, 0x80 | (n >> 6 & 63)), add(word, 0x80 | (n & 63));
    else add(word, 0xF0 | n >> 18), add(word, 0x80 | (n >> 12 & 63)), add(word, 0x80 | (n >> 6 & 63)), add(word, 0x80 | (n & 63));
}

static void add_escape(struct cursor *c, struct bytes *word) {
    static const char names[] = "\"\\/bfnrt", meant[] = "\"\\/\b\f\n\r\t";
    int byte = take(c);
    if (byte == 'u') {
        add_character(c, word);
        return;
    }
    const char *name = byte > 0 ? strchr(names, byte) : NULL;
    if (!name) die_at(c, "an escape that JSON doesn't have");
    add(word, meant[name - names]);
}

static struct bytes json_word(struct cursor *c) {
    struct bytes word = new_word(c);
    want(c, '"');
    for (;;) {
        int byte = take(c);
        if (byte == EOF || byte < ' ') die_at(c, "a string has no end");
        if (byte == '"') return finished(word);
        if (byte == '\\') add_escape(c, &word);
        else add(&word, byte);
    }
}

static void json_entry(struct cursor *c, entry *each) {
    struct bytes pair[2] = {{0, NULL}, {0, NULL}};
    want(c, '{');
    for (int i = 0; i < 2; i++) {
        if (i) want(c, ',');
        struct bytes name = json_word(c);
        int which = name.len == 5 && memcmp(name.at, "value", 5) == 0;
        if (!which && (name.len != 3 || memcmp(name.at, "key", 3) != 0)) die_at(c, "an object has a key and a value, and nothing else");
        if (pair[which].at) die_at(c, "a name stands twice in an object");
        want(c, ':');
        pair[which] = json_word(c);
        free(name.at);
    }
    want(c, '}');
    each(pair[0].at, pair[0].len, pair[1].at, pair[1].len);
    free(pair[0].at), free(pair[1].at);
}

static void read_json(struct cursor *c, entry *each) {
    want(c, '[');
    blanks(c);
    if (!take_if(c, ']')) {
        do {
            json_entry(c, each);
            blanks(c);
        } while (take_if(c, ','));
        want(c, ']');
    }
    blanks(c);
    if (here(c) != EOF) die_at(c, "something follows the list");
}

/* Where no form is asked for, a text that begins with [ is JSON. */
void read_entries(struct bytes text, entry *each) {
    struct cursor c = {text, 0, 1};
    blanks(&c);
    int json = option.json || (!option.csv && here(&c) == '[');
    c = (struct cursor){text, 0, 1};
    if (json) read_json(&c, each);
    else read_csv(&c, each);
}
