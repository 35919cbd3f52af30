/* floatstore: chip images on shore. An image is a file of the chip's bytes, 4,096 for each of its 4 to 4,096 blocks. */
#define _XOPEN_SOURCE 700
#include "floatstore_tool.h"
#include <errno.h>
#include <inttypes.h>
#include <stdlib.h>
#include <string.h>
#include <sys/stat.h>

#ifndef TOOL_VERSION
#define TOOL_VERSION "unreleased"
#endif

/* ---- what changes an image */

static void set_fault(void) {
    if (option.cut) image.fuse = option.cut;
    const char *noise = option.noise ? option.noise : "1";
    if (strcmp(noise, "ones") == 0) memset(image.noise, 0xFF, sizeof image.noise);
    if (strcmp(noise, "ones") == 0 || strcmp(noise, "zeros") == 0) return;
    uint64_t x = number_of(noise, "a seed") * 2 + 1;
    for (size_t i = 0; i < sizeof image.noise; i++) {
        x = x * 6364136223846793005u + 1442695040888963407u;
        image.noise[i] = (uint8_t)(x >> 56);
    }
}

/* What a put or delete left is saved, also where it was cut short; the refusal is told after that. */
static void finish_change(int64_t answer) {
    if (answer == 0 || (answer == -FLOATSTORE_POWER_GONE && option.cut)) save();
    if (answer == -FLOATSTORE_POWER_GONE && option.cut)
        die(REFUSED, "%s: cut short (7): the power failed at operation %" PRIu64 ", as asked", image.name, option.cut);
    done(answer);
    if (option.cut) fprintf(stderr, "floatstore: the call was done before operation %" PRIu64 "\n", option.cut);
}

/* Whatever isn't blank may be somebody's only copy. */
static void must_be_blank(void) {
    if (option.force) return;
    int64_t answer = floatstore_start(image.chip, image.len, image.work, image.words, &image.fuse);
    if (answer == 0 && count() > 0) die(REFUSED, "%s: it has %" PRId64 " keys, which format would remove; --force does", image.name, count());
    for (size_t i = 0; i < image.len; i++)
        if (image.chip[i] != 0xFF) die(REFUSED, "%s: it isn't blank, and format would erase what salvage may still read; --force does", image.name);
}

static void do_format(int argc, char **argv) {
    struct stat about;
    uint64_t blocks = argc == 4 ? number_of(argv[3], "blocks") : 0;
    if (argc == 4 && (blocks < FLOATSTORE_MIN_BLOCKS || blocks > FLOATSTORE_MAX_BLOCKS))
        die(REFUSED, "refused (5): a chip has 4 to 4096 blocks of 4096 bytes");
    if (argc == 4 && stat(argv[2], &about) != 0 && errno == ENOENT && !option.offset) {
        make_image(argv[2], blocks);
        done(floatstore_format(image.chip, image.len, image.work, image.words, &image.fuse, image.noise));
        save_new();
        return;
    }
    if (option.offset && blocks) option.blocks = blocks;
    load(argv[2], TO_CHANGE);
    if (blocks && image.blocks != blocks) die(REFUSED, "%s: it is there, and has another size", argv[2]);
    must_be_blank();
    done(floatstore_format(image.chip, image.len, image.work, image.words, &image.fuse, image.noise));
    save();
}

static void do_put(int argc, char **argv) {
    struct bytes key = bytes_of(argv[3]), value = value_of(argv[4]);
    (void)argc;
    load(argv[2], TO_CHANGE);
    start();
    set_fault();
    finish_change(put(key.at, key.len, value.at, value.len));
}

static void do_delete(int argc, char **argv) {
    struct bytes key = bytes_of(argv[3]);
    (void)argc;
    load(argv[2], TO_CHANGE);
    start();
    set_fault();
    finish_change(floatstore_delete(image.chip, image.len, image.work, image.words, &image.fuse, image.noise, key.at, key.len));
}

static void import_entry(const uint8_t *key, size_t key_len, const uint8_t *value, size_t len) {
    int64_t answer = put(key, key_len, value, len);
    if (answer >= 0) return;
    die(REFUSED, "%s: nothing was imported: refused (%" PRId64 "): %s: '%.*s'", image.name, -answer, refusal_words(-answer),
        key_len < 64 ? (int)key_len : 64, (const char *)key);
}

/* All of the puts, or none: the image is saved after the last. */
static void do_import(int argc, char **argv) {
    struct bytes text = all_of(argc == 4 ? argv[3] : "-");
    load(argv[2], TO_CHANGE);
    start();
    read_entries(text, import_entry);
    save();
}

/* ---- what reads the map */

static void do_get(int argc, char **argv) {
    uint8_t value[FLOATSTORE_MAX_VALUE];
    struct bytes key = bytes_of(argv[3]);
    (void)argc;
    load(argv[2], TO_READ);
    start();
    size_t len = (size_t)done(get(key.at, key.len, value, sizeof value));
    if (option.raw) fwrite(value, 1, len, stdout);
    else show(value, len), putchar('\n');
}

static void do_count(int argc, char **argv) {
    (void)argc;
    load(argv[2], TO_READ);
    start();
    printf("%" PRId64 "\n", count());
}

/* Every key that has a value, in the order of the keys. */
static void walk(entry *each) {
    uint8_t key[FLOATSTORE_MAX_KEY], last[FLOATSTORE_MAX_KEY] = {0}, value[FLOATSTORE_MAX_VALUE];
    int64_t len = 0;
    while ((len = next(last, (size_t)len, key, sizeof key)) >= 0) {
        each(key, (size_t)len, value, (size_t)done(get(key, (size_t)len, value, sizeof value)));
        memcpy(last, key, (size_t)len);
    }
    if (len != -FLOATSTORE_NO_VALUE) done(len);
}

static void list_entry(const uint8_t *key, size_t key_len, const uint8_t *value, size_t len) {
    show(key, key_len);
    putchar('\t');
    show(value, len);
    putchar('\n');
}

static void do_list(int argc, char **argv) {
    (void)argc;
    load(argv[2], TO_READ);
    start();
    walk(list_entry);
}

static void do_export(int argc, char **argv) {
    (void)argc;
    load(argv[2], TO_READ);
    start();
    begin_entries();
    walk(write_entry);
    end_entries();
}

/* ---- the commands and their words */

struct command {
    const char *name, *words;
    int least, most;
    void (*run)(int argc, char **argv);
    const char *options, *help, *more;
};

#define HEX "A KEY (1 to 16 bytes; to put, printable ones) is text, or hex digits after 'hex:', as hex:00ff. What isn't printable is shown so too.\n"
#define VALUE \
    "A VALUE (0 to 220 bytes) is text or hex: as a key is, or - for standard input, or @FILE for a file's bytes; @@x is the text @x, hex:2d is -.\n"
#define CUT \
    "--cut N: the power fails at the N-th erase or page write. --noise SEED: ones, zeros, or a number. A cut write leaves new | noise, an erase the noise.\n"
#define ENTRIES "Keys and values stand there as the tool shows them: text, or hex digits after 'hex:'.\n"

static const struct command commands[] = {
    {"format", "IMAGE [B]", 1, 2, do_format, "--force", "an empty store; with B (4 to 4096 blocks) the image may be a new file",
     "An image that isn't blank is formatted with --force only.\n"},
    {"put", "IMAGE KEY VALUE", 3, 3, do_put, "--cut --noise", "the key has this value from now on", HEX VALUE CUT},
    {"get", "IMAGE KEY", 2, 2, do_get, "--raw", "its value", HEX "--raw writes the value's bytes as they are.\n"},
    {"delete", "IMAGE KEY", 2, 2, do_delete, "--cut --noise", "the key has no value any more", HEX CUT},
    {"count", "IMAGE", 1, 1, do_count, "", "how many keys have a value", ""},
    {"list", "IMAGE", 1, 1, do_list, "", "every key and its value, in the order of the keys' bytes", ""},
    {"export", "IMAGE", 1, 1, do_export, "--json --csv", "every key and its value as JSON, or as CSV", ENTRIES},
    {"import", "IMAGE [FILE]", 1, 2, do_import, "--json --csv", "puts what export wrote, from a file or standard input; all of it or nothing",
     ENTRIES "Keys that the file doesn't name stay. Without --json or --csv, a text that begins with [ is JSON.\n"},
    {"check", "IMAGE", 1, 1, do_check, "", "pages by kind, head, spare, sealed blocks, what a cut left behind; reads the map twice, by two ways", ""},
    {"map", "IMAGE", 1, 1, do_map, "--svg", "a picture of the ring, a character for each page; or as SVG, to a file: --svg FILE",
     "--svg -: to standard output. Above 64 blocks the picture has a cell for each block. Only a picture is replaced by a picture.\n"},
    {"history", "IMAGE KEY", 2, 2, do_history, "", "all records of a key, oldest first", HEX "The spare's come first: start never believes them.\n"},
    {"dump", "IMAGE PAGE", 2, 2, do_dump, "", "a page's bytes, and what it says; PAGE is a number or BLOCK:PLACE", ""},
    {"diff", "A B", 2, 2, do_diff, "", "the keys and the pages in which two images differ; status 4 if any", "--offset and --blocks hold of both.\n"},
    {"salvage", "IMAGE", 1, 1, do_salvage, "--json --csv", "every sound record, also where start refuses; what is newest, how sure that is, what was lost",
     "--json or --csv: the map alone, by the best guess, for import into another image; without what pages spoilt in one bit may have said.\n"},
};
enum { COMMANDS = sizeof commands / sizeof commands[0] };

static void print_line(const struct command *c) {
    char words[64];
    snprintf(words, sizeof words, "%s %s", c->name, c->words);
    printf("  floatstore %-24s %s\n", words, c->help);
}

static void print_help(void) {
    printf("floatstore: look into the image of a float's chip, and change it\n\n");
    for (size_t i = 0; i < COMMANDS; i++) print_line(&commands[i]);
    printf("  floatstore COMMAND -h               more about a command; help: this page; --version\n\n" HEX VALUE);
    printf("Each command takes --offset N, where the store begins at byte N of a larger file, and --blocks B, where more follows it.\n\n"
           "A change is made under a lock, in place, with a copy beside (IMAGE.rescue) until it is on the disk: the whole of it is there, or nothing.\n"
           "Exit status: 0 done; 1 refused; 2 misused; 3 damaged: start refuses the chip, or two readings of it differ; 4 diff found differences.\n");
}

/* What follows an option, if anything. */
static const char *word_after(const char *name) {
    if (strncmp(name, "--svg", 5) == 0) return " FILE";
    if (strncmp(name, "--cut", 5) == 0) return " N";
    return strncmp(name, "--noise", 7) == 0 ? " SEED" : "";
}

static void print_more(const struct command *c) {
    printf("floatstore %s %s", c->name, c->words);
    for (const char *o = c->options; *o; o += strcspn(o, " "), o += *o == ' ') printf(" [%.*s%s]", (int)strcspn(o, " "), o, word_after(o));
    printf(" [--offset N] [--blocks B]\n\n%s\n%s", c->help, c->more);
}

/* ---- options: they are taken out of the words */

/* Whether the command takes the option. */
static int takes(const struct command *c, const char *name) {
    size_t len = strlen(name);
    for (const char *o = c->options; *o; o += strcspn(o, " "), o += *o == ' ')
        if (strcspn(o, " ") == len && strncmp(o, name, len) == 0) return 1;
    return strcmp(name, "--offset") == 0 || strcmp(name, "--blocks") == 0;
}

/* An option that is a word alone. */
static int *flag_of(const char *name) {
    if (strcmp(name, "--raw") == 0) return &option.raw;
    if (strcmp(name, "--force") == 0) return &option.force;
    if (strcmp(name, "--json") == 0) return &option.json;
    return strcmp(name, "--csv") == 0 ? &option.csv : NULL;
}

static void set_option(const char *name, const char *word) {
    if (strcmp(name, "--svg") == 0) option.svg = word;
    if (strcmp(name, "--noise") == 0) option.noise = word;
    if (strcmp(name, "--offset") == 0) option.offset = number_of(word, "bytes");
    if (strcmp(name, "--blocks") == 0 && (option.blocks = number_of(word, "blocks")) == 0) die(MISUSED, "a chip has 4 to 4096 blocks");
    if (strcmp(name, "--cut") == 0 && (option.cut = number_of(word, "operations")) == 0) die(MISUSED, "operations are counted from 1");
}

/* After '--' nothing is an option, so that a key may begin so. */
static int take_options(const struct command *c, int argc, char **argv) {
    int kept = 2, words = 0;
    for (int i = 2; i < argc; i++) {
        if (words || strncmp(argv[i], "--", 2) != 0) {
            argv[kept++] = argv[i];
            continue;
        }
        if (strcmp(argv[i], "--") == 0) {
            words = 1;
            continue;
        }
        if (!takes(c, argv[i])) die(MISUSED, "%s has no option %s; see: floatstore help", argv[1], argv[i]);
        if (flag_of(argv[i])) {
            *flag_of(argv[i]) = 1;
            continue;
        }
        if (i + 1 == argc) die(MISUSED, "%s needs a word after it", argv[i]);
        set_option(argv[i], argv[i + 1]);
        i++;
    }
    if (option.json && option.csv) die(MISUSED, "--json or --csv, not both");
    return kept;
}

static const struct command *find(const char *name) {
    for (size_t i = 0; i < COMMANDS; i++)
        if (strcmp(commands[i].name, name) == 0) return &commands[i];
    die(MISUSED, "there is no command '%s'; see: floatstore help", name);
}

static int end(void) {
    if (fflush(stdout) != 0 || ferror(stdout)) die(REFUSED, "standard output: %s", strerror(errno));
    return DONE;
}

static int is_help(const char *word) { return strcmp(word, "-h") == 0 || strcmp(word, "--help") == 0; }

int main(int argc, char **argv) {
    if (argc < 2) die(MISUSED, "no command; see: floatstore help");
    if (strcmp(argv[1], "help") == 0 || is_help(argv[1])) return print_help(), end();
    if (strcmp(argv[1], "--version") == 0) return printf("floatstore %s\n", TOOL_VERSION), end();
    const struct command *c = find(argv[1]);
    if (argc >= 3 && is_help(argv[2])) return print_more(c), end();
    argc = take_options(c, argc, argv);
    if (argc < 2 + c->least || argc > 2 + c->most)
        die(MISUSED, "%s: %s; see: floatstore %s -h", argv[1], argc < 2 + c->least ? "words are missing" : "too many words", argv[1]);
    c->run(argc, argv);
    return end();
}
