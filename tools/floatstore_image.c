/* The image: read into memory under a lock, changed there by the library, and written back so that nothing is lost. */
#define _XOPEN_SOURCE 700
#define _DEFAULT_SOURCE
#include "floatstore_tool.h"
#include <errno.h>
#include <fcntl.h>
#include <inttypes.h>
#include <signal.h>
#include <stdarg.h>
#include <stdlib.h>
#include <string.h>
#include <sys/file.h>
#include <sys/stat.h>
#include <unistd.h>

struct image image = {.file = -1, .fuse = FLOATSTORE_NO_FAULT};
struct options option;

void die(int status, const char *form, ...) {
    va_list words;
    va_start(words, form);
    fflush(stdout);
    fputs("floatstore: ", stderr);
    vfprintf(stderr, form, words);
    fputc('\n', stderr);
    va_end(words);
    exit(status);
}

void *room_for(size_t len) {
    void *at = malloc(len ? len : 1);
    if (!at) die(REFUSED, "no memory");
    return at;
}

/* ---- refusals in words */

const char *refusal_words(int64_t number) {
    static const char *const words[] = {
        "",
        "a key has 1 to 16 bytes; put takes bytes 0x21 to 0x7E alone",
        "a value has at most 220 bytes",
        "no room: the store has as many keys as it can hold",
        "the key has no value",
        "a chip has 4 to 4096 blocks of 4096 bytes",
        "the buffer is shorter than the value",
        "the power has gone",
        "these bytes are no store",
        "numbers have run out",
    };
    return number >= 1 && number <= 9 ? words[number] : "unknown";
}

/* What start refuses is evidence: what is wrong, and the command that loses nothing. */
static _Noreturn void die_damaged(void) {
    struct reading r;
    fflush(stdout);
    read_image(&r);
    fprintf(stderr, "floatstore: %s: refused (8): %s: ", image.name, refusal_words(8));
    print_faults(stderr, &r);
    fprintf(stderr, "; what can still be read: floatstore salvage %s\n", image.name);
    exit(DAMAGED);
}

int64_t done(int64_t answer) {
    if (answer == -FLOATSTORE_NOT_STARTED) die_damaged();
    if (answer < 0) die(REFUSED, "%s: refused (%" PRId64 "): %s", image.name, -answer, refusal_words(-answer));
    return answer;
}

/* ---- names beside the image */

/* A link is followed: what it leads to is changed, and what stands beside stands beside that. */
static char *beside(const char *end) {
    char *real = realpath(image.name, NULL);
    if (!real) die(REFUSED, "%s: %s", image.name, strerror(errno));
    char *name = room_for(strlen(real) + strlen(end) + 1);
    strcpy(name, real);
    strcat(name, end);
    free(real);
    return name;
}

/* A rescue file that is there while nobody holds the lock was left by a change that this machine didn't survive. */
static void look_for_rescue(enum purpose why) {
    struct stat about;
    char *rescue = beside(".rescue");
    if (stat(rescue, &about) == 0) {
        const char *form = "%s: a change was interrupted, and %s is the image after it: 'cp' it over the image or not, then remove it";
        if (why == TO_CHANGE) die(REFUSED, form, image.name, rescue);
        fprintf(stderr, "floatstore: ");
        fprintf(stderr, form, image.name, rescue);
        fputc('\n', stderr);
    }
    free(rescue);
}

/* ---- reading */

static void make_room(const char *name, size_t blocks) {
    image.name = name;
    image.blocks = blocks;
    image.len = FLOATSTORE_CHIP_LEN(blocks);
    image.words = FLOATSTORE_WORK_LEN(blocks);
    image.chip = room_for(image.len);
    image.was = room_for(image.len);
    image.work = room_for(image.words * sizeof *image.work);
    memset(image.work, 0, image.words * sizeof *image.work);
}

/* One changes at a time, and nobody reads meanwhile. Where the file system has no locks, reading goes on without. */
static void lock(enum purpose why) {
    while (flock(image.file, why == TO_CHANGE ? LOCK_EX : LOCK_SH) != 0) {
        if (errno == EINTR) continue;
        if (why == TO_CHANGE) die(REFUSED, "%s: cannot be locked: %s", image.name, strerror(errno));
        return;
    }
}

static void open_image(const char *name, enum purpose why) {
    struct stat about;
    if (image.file >= 0) close(image.file);
    image.name = name;
    if (stat(name, &about) == 0 && !S_ISREG(about.st_mode)) die(REFUSED, "%s: not a file", name);
    image.file = open(name, why == TO_CHANGE ? O_RDWR : O_RDONLY);
    if (image.file < 0) die(REFUSED, "%s: %s", name, strerror(errno));
    lock(why);
    if (fstat(image.file, &about) != 0 || !S_ISREG(about.st_mode)) die(REFUSED, "%s: not a file", name);
    /* root may write to any file; one that nobody may write to was meant to stay */
    if (why == TO_CHANGE && !(about.st_mode & 0222)) die(REFUSED, "%s: %s", name, strerror(EACCES));
}

/* The store's blocks: --blocks of them from --offset on, or all that follow. */
static size_t blocks_of(size_t len) {
    if (option.offset > len) die(REFUSED, "%s: it has %zu bytes, and no offset %" PRIu64, image.name, len, option.offset);
    size_t rest = len - option.offset, blocks = option.blocks ? option.blocks : rest / FLOATSTORE_BLOCK;
    if (option.blocks && rest / FLOATSTORE_BLOCK < blocks) die(REFUSED, "%s: %zu bytes from there on are fewer than %zu blocks", image.name, rest, blocks);
    if ((!option.blocks && rest % FLOATSTORE_BLOCK) || blocks < FLOATSTORE_MIN_BLOCKS || blocks > FLOATSTORE_MAX_BLOCKS)
        die(REFUSED, "%s: %zu bytes is no chip's size: 4 to 4096 blocks of 4096", image.name, rest);
    return blocks;
}

static void read_at(int file, void *to, size_t len, size_t from) {
    for (size_t at = 0; at < len;) {
        ssize_t n = pread(file, (char *)to + at, len - at, (off_t)(from + at));
        if (n < 0 && errno == EINTR) continue;
        if (n <= 0) die(REFUSED, "%s: %s", image.name, n < 0 ? strerror(errno) : "shorter than it was");
        at += (size_t)n;
    }
}

void load(const char *name, enum purpose why) {
    struct stat about;
    open_image(name, why);
    fstat(image.file, &about);
    make_room(name, blocks_of((size_t)about.st_size));
    read_at(image.file, image.chip, image.len, option.offset);
    memcpy(image.was, image.chip, image.len);
    look_for_rescue(why);
}

/* ---- writing */

static int write_at(int file, const void *bytes, size_t len, size_t to) {
    for (size_t at = 0; at < len;) {
        ssize_t n = pwrite(file, (const char *)bytes + at, len - at, (off_t)(to + at));
        if (n < 0 && errno == EINTR) continue;
        if (n <= 0) return 0;
        at += (size_t)n;
    }
    return 1;
}

/* From here on no signal that can be held back ends the tool, and a file that may not grow is an error and no signal. */
static void hold_signals(void) {
    sigset_t set;
    sigemptyset(&set);
    sigaddset(&set, SIGINT), sigaddset(&set, SIGTERM), sigaddset(&set, SIGHUP), sigaddset(&set, SIGQUIT);
    sigprocmask(SIG_BLOCK, &set, NULL);
    signal(SIGXFSZ, SIG_IGN);
    signal(SIGPIPE, SIG_IGN);
}

static _Noreturn void die_unwritten(const char *part, const char *name) {
    int wrong = errno;
    if (part) unlink(part);
    die(REFUSED, "%s: not written: %s", name, strerror(wrong));
}

/* A name is on the disk when its directory is. */
static void sync_directory(const char *name) {
    char *copy = room_for(strlen(name) + 1), *slash;
    strcpy(copy, name);
    if ((slash = strrchr(copy, '/')) != NULL) slash[slash == copy] = 0;
    int directory = open(slash ? copy : ".", O_RDONLY);
    if (directory >= 0) fsync(directory), close(directory);
    free(copy);
}

/* The whole file as it will be, beside the image and on the disk, under a name that says so only when it is complete. */
static char *write_rescue(void) {
    struct stat about;
    char *part = beside(".rescue.part"), *rescue = beside(".rescue");
    if (fstat(image.file, &about) != 0) die_unwritten(NULL, image.name);
    unlink(part); /* of a change that was interrupted: never complete */
    int file = open(part, O_WRONLY | O_CREAT | O_EXCL, 0600);
    if (file < 0) die(REFUSED, "%s: cannot write beside it: %s", image.name, strerror(errno));
    size_t size = (size_t)about.st_size, after = option.offset + image.len;
    uint8_t *rest = room_for(size - image.len);
    read_at(image.file, rest, option.offset, 0);
    read_at(image.file, rest + option.offset, size - after, after);
    if (!write_at(file, rest, option.offset, 0) || !write_at(file, image.chip, image.len, option.offset)) die_unwritten(part, image.name);
    if (!write_at(file, rest + option.offset, size - after, after) || fchmod(file, about.st_mode & 0777) != 0) die_unwritten(part, image.name);
    if (fsync(file) != 0 || close(file) != 0 || rename(part, rescue) != 0) die_unwritten(part, image.name);
    sync_directory(rescue);
    free(rest), free(part);
    return rescue;
}

/* The image is written in place, only the pages that changed: so its owner, mode, links, attributes and the lock stay with it, which a file renamed
 * over it would not keep. That this machine may crash in the middle is what IMAGE.rescue is for: it is whole and on the disk before the first byte
 * changes, and goes when the image is there too. */
void save(void) {
    hold_signals();
    if (memcmp(image.chip, image.was, image.len) == 0) return;
    char *rescue = write_rescue();
    for (size_t p = 0; p < image.len; p += FLOATSTORE_PAGE) {
        if (memcmp(image.chip + p, image.was + p, FLOATSTORE_PAGE) == 0) continue;
        if (!write_at(image.file, image.chip + p, FLOATSTORE_PAGE, option.offset + p))
            die(REFUSED, "%s: %s; %s is whole", image.name, strerror(errno), rescue);
    }
    if (fsync(image.file) != 0) die(REFUSED, "%s: %s; %s is whole", image.name, strerror(errno), rescue);
    unlink(rescue);
    free(rescue);
}

void make_image(const char *name, size_t blocks) {
    image.name = name;
    image.file = open(name, O_RDWR | O_CREAT | O_EXCL, 0666);
    if (image.file < 0) die(REFUSED, "%s: cannot be made: %s", name, strerror(errno));
    lock(TO_CHANGE);
    make_room(name, blocks);
    memset(image.chip, 0xFF, image.len);
}

void save_new(void) {
    hold_signals();
    if (!write_at(image.file, image.chip, image.len, 0) || fsync(image.file) != 0) die_unwritten(image.name, image.name);
    sync_directory(image.name);
}

/* ---- pictures */

/* Only a picture may be replaced by a picture: not the image under whatever name, nor anything else. */
static void must_be_a_picture(const char *name) {
    struct stat there, here;
    if (stat(name, &there) != 0) return;
    if (fstat(image.file, &here) == 0 && there.st_dev == here.st_dev && there.st_ino == here.st_ino)
        die(REFUSED, "%s: that is the image; the picture needs another name", name);
    if (!S_ISREG(there.st_mode) || !(there.st_mode & 0222)) die(REFUSED, "%s: not a file that may be written", name);
    FILE *file = fopen(name, "r+b");
    if (!file) die(REFUSED, "%s: %s", name, strerror(errno));
    int first = fgetc(file);
    fclose(file);
    if (first != EOF && first != '<') die(REFUSED, "%s: it is there, and no picture", name);
}

/* Written beside, then renamed: whoever looks at the name finds the old picture or the new one. */
void save_picture(const char *name, const char *text, size_t len) {
    struct stat about;
    must_be_a_picture(name);
    hold_signals();
    char *real = realpath(name, NULL);
    if (real) name = real;
    char *part = room_for(strlen(name) + 8);
    sprintf(part, "%s.XXXXXX", name);
    int file = mkstemp(part);
    if (file < 0) die(REFUSED, "%s: cannot write beside it: %s", name, strerror(errno));
    mode_t mask = umask(0);
    if (fchmod(file, stat(name, &about) == 0 ? about.st_mode & 0777 : 0666 & ~mask) != 0) die_unwritten(part, name);
    if (!write_at(file, text, len, 0) || fsync(file) != 0 || close(file) != 0 || rename(part, name) != 0) die_unwritten(part, name);
    free(part), free(real);
}

/* ---- the library on the image */

void start(void) { done(floatstore_start(image.chip, image.len, image.work, image.words, &image.fuse)); }
int64_t get(const uint8_t *key, size_t key_len, uint8_t *buffer, size_t len) {
    return floatstore_get(image.chip, image.len, image.work, image.words, &image.fuse, key, key_len, buffer, len);
}
int64_t put(const uint8_t *key, size_t key_len, const uint8_t *value, size_t len) {
    return floatstore_put(image.chip, image.len, image.work, image.words, &image.fuse, image.noise, key, key_len, value, len);
}
int64_t next(const uint8_t *key, size_t key_len, uint8_t *buffer, size_t len) {
    return floatstore_next(image.chip, image.len, image.work, image.words, &image.fuse, key, key_len, buffer, len);
}
int64_t count(void) { return done(floatstore_count(image.chip, image.len, image.work, image.words, &image.fuse)); }

void read_image(struct reading *r) {
    if (!read_chip(r, image.chip, image.blocks)) die(REFUSED, "no memory");
}
void read_guess(struct reading *r, const struct guess *g) {
    if (!read_as(r, image.chip, image.blocks, g)) die(REFUSED, "no memory");
}
