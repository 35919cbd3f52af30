/* floatstore_text.h: what an answer of the store means, in words. For logs and consoles; floatstore.h has the rules. */
#ifndef FLOATSTORE_TEXT_H
#define FLOATSTORE_TEXT_H

#include "floatstore.h"

/* A line without a full stop, never null; of numbers that no call answers, too. */
static inline const char *floatstore_text(int64_t answer) {
    if (answer >= 0) return "done";
    switch (answer) {
    case -FLOATSTORE_BAD_KEY: return "the key has 0 bytes or more than 16, or it is to be put and has a byte outside 0x21 to 0x7E";
    case -FLOATSTORE_LONG_VALUE: return "the value has more than 220 bytes";
    case -FLOATSTORE_NO_ROOM: return "no room: the key has no value yet, and the store has as many keys as it holds";
    case -FLOATSTORE_NO_VALUE: return "the key has no value; of next: no larger key has one";
    case -FLOATSTORE_BAD_SIZE: return "the chip is not 4 to 4,096 blocks of 4,096 bytes, or the work area has too few words";
    case -FLOATSTORE_SHORT_BUFFER: return "the buffer is too short, and was left unchanged";
    case -FLOATSTORE_POWER_GONE: return "the power has gone since the last start: start again, then ask whether the call happened";
    case -FLOATSTORE_NOT_STARTED: return "not started; of start: the chip's bytes are no store";
    case -FLOATSTORE_NUMBERS_OUT: return "numbers have run out: this store has none, and never answers this";
    default: return "no answer of this store";
    }
}

#endif
