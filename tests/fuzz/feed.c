#include "feed.h"

#include "lcf.h"

#include <string.h>

static const uint8_t *bytes;

uint64_t number;
size_t bytes_left;
struct lent first, second, out;

void feed(const uint8_t *data, size_t size) {
    bytes = data;
    bytes_left = size;
    number = size;
    for (size_t i = 0; i < size; i++) number = 31 * number + data[i];
    take_back(&first);
    take_back(&second);
    take_back(&out);
}

uint8_t take(void) {
    if (bytes_left == 0) return 0;
    bytes_left--;
    return *bytes++;
}

uint32_t take_term(void) {
    uint32_t value = 0;
    for (int i = 0; i < 4; i++) value = value << 8 | take();
    return value >> take() % 32;
}

size_t take_size(void) {
    size_t size = take(), shift = take();
    return shift < 224 ? size : size + ((size_t)1 << (shift % 64));
}

void take_key(struct lent *lent, uint64_t salt) {
    uint8_t content[256], mode = take(), eight = 0;
    size_t length = take();
    if (mode % 8 != 0) length %= 97;
    for (size_t i = 0; i < length; i++, eight >>= 1) {
        if (i % 8 == 0) eight = take();
        content[i] = '0' + (eight & 1);
    }
    if (length > 0 && mode / 8 % 8 != 0) content[length - 1] = '1';
    if (length > 0 && mode / 64 == 0) content[take() % length] = take();
    lend(lent, length, content, number + salt);
}

void take_second(void) {
    uint8_t content[256];
    if (take() % 4 == 0 || first.length == 0) {
        take_key(&second, 1);
        return;
    }
    memcpy(content, first.bytes, first.length);
    content[take() % first.length] ^= take() & 1;
    lend(&second, first.length - take() % first.length, content, number + 1);
}

void take_column(void) {
    uint8_t content[15], length = take();
    length = length < 64 ? length % 15 : LCF_COLUMN_BYTES;
    for (int i = 0; i < length; i++) content[i] = take();
    lend(&first, length, content, number);
}

void take_out(size_t asked) {
    uint8_t length = take();
    lend(&out, length < 128 ? length : asked, NULL, number + 2);
}
