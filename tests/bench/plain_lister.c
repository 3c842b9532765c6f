/* The ratio lister in plain C: the yardstick for the proved one. Same input, same output, same buffers. */
#include "plain_spell.h"
#include <string.h>
#include <unistd.h>

/* ROOM is for the longest answer, 122 characters, and for what the last group of a key writes past it. */
enum { BUFFER = 65536, ROOM = 136 };
static const uint64_t LIMIT = 4294967295u;

static char input[BUFFER], out[BUFFER];

/* The line so far. */
enum part { NOTHING, FIRST, SECOND, BAD };
struct line {
    enum part part;
    unsigned digits;
    uint64_t first, value;
};

static char *put_decimal(char *to, uint32_t n) {
    char text[10];
    char *from = text + 10;
    do
        *--from = '0' + n % 10;
    while (n /= 10);
    size_t count = text + 10 - from;
    memcpy(to, from, count);
    return to + count;
}

/* Eight characters at a time; the last group may go past the key, within the room that the caller keeps. */
static char *put_key(char *to, struct block b) {
    char *end = to + characters_of(b);
    uint64_t bits = b.high;
    for (int i = 0; to < end; i++, to += 8, bits <<= 8) {
        if (i == 8) bits = (uint64_t)b.low << 32;
        uint64_t group = spread(bits);
        memcpy(to, &group, 8);
    }
    return end;
}

static char *refuse(char *to, uint32_t number) {
    memcpy(to, "refused ", 8);
    to = put_decimal(to + 8, number);
    *to++ = '\n';
    return to;
}

static char *accept(char *to, uint32_t p, uint32_t q) {
    uint32_t quotients, divisor;
    struct block key = spell(p, q, &quotients, &divisor);
    to = put_decimal(to, p / divisor);
    *to++ = '/';
    to = put_decimal(to, q / divisor);
    *to++ = ' ';
    to = put_key(to, key);
    *to++ = ' ';
    to = put_decimal(to, quotients);
    *to++ = '\n';
    return to;
}

static char *answer(char *to, struct line l) {
    if (l.part != SECOND || l.digits == 0)
        return refuse(to, 10);
    if (l.first > LIMIT || l.value > LIMIT)
        return refuse(to, 7);
    if (l.value == 0)
        return refuse(to, 1);
    return accept(to, l.first, l.value);
}

static struct line feed(struct line l, unsigned char byte) {
    unsigned digit = byte - '0';
    if (digit <= 9) {
        if (l.part == NOTHING)
            return (struct line){FIRST, 1, 0, digit};
        if (l.part == BAD || l.digits == 10)
            return (struct line){BAD, 0, 0, 0};
        return (struct line){l.part, l.digits + 1, l.first, l.value * 10 + digit};
    }
    if (byte == '/' && l.part == FIRST)
        return (struct line){SECOND, 0, l.value, 0};
    return (struct line){BAD, 0, 0, 0};
}

static int flush(size_t held) {
    for (size_t done = 0; done < held;) {
        ssize_t put = write(1, out + done, held - done);
        if (put <= 0)
            return 0;
        done += put;
    }
    return 1;
}

int main(void) {
    struct line l = {NOTHING, 0, 0, 0};
    char *to = out;
    ssize_t got;
    while ((got = read(0, input, BUFFER)) > 0)
        for (ssize_t at = 0; at < got; at++) {
            if (input[at] != '\n') {
                l = feed(l, input[at]);
                continue;
            }
            if (out + BUFFER - to < ROOM) {
                if (!flush(to - out))
                    return 1;
                to = out;
            }
            to = answer(to, l);
            l.part = NOTHING;
        }
    if (got < 0)
        return 1;
    if (l.part != NOTHING) {
        if (out + BUFFER - to < ROOM) {
            if (!flush(to - out))
                return 1;
            to = out;
        }
        to = answer(to, l);
    }
    return !flush(to - out);
}
