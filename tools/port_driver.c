/* The build for a chip behind a driver: what tools/port.py takes out of the module (chip::read, chip::write, chip::erase), and the calls of
 * floatstore_driver.h, which lend the module what it asks for. */
#include <floatstore_driver.h>

#ifdef __arm__ /* to the linker: no float and no enum is handed over, so this is code for programs with either kind of each */
__asm__(".eabi_attribute 26, 0\n.eabi_attribute 28, 3");
#endif

/* What the module takes for the chip's bytes, and only hands on. `failed` stands elsewhere: so it is no part of a chip that a call doesn't change. */
struct chip {
    void *own;
    uint32_t *failed;
};

/* The module hands over a slice as its pointer and its length. In the place of chip::read. Once the chip has failed, the bytes are none of its own: what
 * becomes of them reaches neither the chip nor the answer. */
void floatstore_swapped_read(struct chip *c, uint64_t chip_len, uint64_t at, uint8_t *bytes, uint64_t len) {
    (void)chip_len;
    if (!*c->failed && len != 0 && floatstore_chip_read(c->own, (uint32_t)at, bytes, (uint32_t)len) != 0) *c->failed = 1;
    if (*c->failed)
        for (uint64_t i = 0; i < len; i++) bytes[i] = 0xFF;
}

/* Whether the chip may still be asked. The module goes on as after a power failure where the fuse is 0. */
static int alive(const struct chip *c, uint64_t *fuse) {
    if (*c->failed) *fuse = 0;
    return *fuse != 0;
}

/* After an operation: one less to come, or none. */
static void done(const struct chip *c, uint64_t *fuse, int answer) {
    if (answer != 0) *c->failed = 1;
    *fuse = answer == 0 ? *fuse - 1 : 0;
}

/* In the place of chip::write and chip::erase. The noise isn't looked at. */
void floatstore_swapped_write(struct chip *c, uint64_t chip_len, uint64_t page, const uint8_t *bytes, uint64_t *fuse, const void *noise) {
    (void)chip_len, (void)noise;
    if (alive(c, fuse)) done(c, fuse, floatstore_chip_write(c->own, (uint32_t)page, bytes));
}

void floatstore_swapped_erase(struct chip *c, uint64_t chip_len, uint64_t block, uint64_t *fuse, const void *noise) {
    (void)chip_len, (void)noise;
    if (alive(c, fuse)) done(c, fuse, floatstore_chip_erase(c->own, (uint32_t)block));
}

/* The module's own calls: those of floatstore.h, with lengths of 64 bits on every target. */
#define MODULE(name, ...) \
    int64_t floatstore_module_##name(struct chip *chip, uint64_t chip_len, uint32_t *work, uint64_t work_len, uint64_t *fuse, ##__VA_ARGS__)
int64_t floatstore_module_version(void);
MODULE(format, const void *noise);
MODULE(start);
MODULE(start_seeing, struct floatstore_seen *seen);
MODULE(put, const void *noise, const uint8_t *key, uint64_t key_len, const uint8_t *value, uint64_t value_len);
MODULE(get, const uint8_t *key, uint64_t key_len, uint8_t *buffer, uint64_t buffer_len);
MODULE(delete, const void *noise, const uint8_t *key, uint64_t key_len);
MODULE(count);
MODULE(next, const uint8_t *key, uint64_t key_len, uint8_t *buffer, uint64_t buffer_len);

/* Each call lends a chip that hasn't failed, a fuse that never burns by itself, and as noise a pointer that nobody looks through. Where the chip failed, the
 * area says so from now on (2: the power has gone), and the answer is -7. */
static int64_t answer_of(int64_t answer, uint32_t failed, uint32_t *work, size_t work_len) {
    if (!failed) return answer;
    if (work_len > 0) work[0] = 2;
    return -FLOATSTORE_POWER_GONE;
}
#define CALL(name, ...)                                                                            \
    uint32_t failed = 0;                                                                           \
    uint64_t fuse = FLOATSTORE_NO_FAULT;                                                           \
    struct chip lent = {chip, &failed};                                                            \
    int64_t answer = floatstore_module_##name(&lent, chip_len, work, work_len, &fuse, ##__VA_ARGS__); \
    return answer_of(answer, failed, work, work_len)
#define LENT void *chip, size_t chip_len, uint32_t *work, size_t work_len

int64_t floatstore_version(void) { return floatstore_module_version(); }
int64_t floatstore_format(LENT) { CALL(format, &lent); }
int64_t floatstore_start(LENT) { CALL(start); }
int64_t floatstore_start_seeing(LENT, struct floatstore_seen *seen) { CALL(start_seeing, seen); }
int64_t floatstore_put(LENT, const uint8_t *key, size_t key_len, const uint8_t *value, size_t value_len) {
    CALL(put, &lent, key, key_len, value, value_len);
}
int64_t floatstore_get(LENT, const uint8_t *key, size_t key_len, uint8_t *buffer, size_t buffer_len) { CALL(get, key, key_len, buffer, buffer_len); }
int64_t floatstore_delete(LENT, const uint8_t *key, size_t key_len) { CALL(delete, &lent, key, key_len); }
int64_t floatstore_count(LENT) { CALL(count); }
int64_t floatstore_next(LENT, const uint8_t *key, size_t key_len, uint8_t *buffer, size_t buffer_len) { CALL(next, key, key_len, buffer, buffer_len); }
