/* Reads cases from standard input, a call with its answer in each line, calls the archive, and compares every field of
   the answer and every byte of the lent memory. The lines come from `reference cases`, which says how they look. */
#define _DEFAULT_SOURCE
#include "driver.h"
#include "lcf.h"

#include <signal.h>
#include <stdio.h>
#include <stdlib.h>
#include <string.h>
#include <unistd.h>

enum { MOST_INPUTS = 5, SHOWN = 5, GOT_MOST = 2 * LENT_MOST + 256 };

static char *line; /* as it was read; its fields are cut out of a copy */
static unsigned long line_number;
static struct lent second;
static size_t written;     /* how many bytes at the front of out the call may have changed */
static char got[GOT_MOST]; /* the answer in the form of the line */
static size_t got_used;    /* characters of it */

struct lent first, out;

static void malformed(void) {
    fprintf(stderr, "driver: line %lu is malformed: %s\n", line_number, line);
    exit(1);
}

/* A read or write outside of what was lent. The fault is in a call, so that nothing here is half done. */
static void faulted(int signal_number) {
    fprintf(stderr, "driver: line %lu ends by signal %d: %s\n", line_number, signal_number, line);
    _exit(1);
}

uint64_t number(const char *field, uint64_t most) {
    uint64_t value = 0;
    if (*field == 0) malformed();
    for (; *field != 0; field++) {
        uint64_t digit = (uint64_t)(*field - '0');
        if (*field < '0' || *field > '9' || digit > most || value > (most - digit) / 10) malformed();
        value = 10 * value + digit;
    }
    return value;
}

static uint8_t hex_digit(char character) {
    const char *digits = "0123456789abcdef";
    const char *found = character == 0 ? NULL : strchr(digits, character);
    if (found == NULL) malformed();
    return (uint8_t)(found - digits);
}

static void lend_input(struct lent *lent, const char *field, uint64_t salt) {
    uint8_t content[LENT_MOST];
    size_t length = 0;
    if (*field == 0) malformed();
    if (strcmp(field, "-") == 0) field = "";
    for (; *field != 0; field += 2) {
        if (length == LENT_MOST) malformed();
        uint8_t high = hex_digit(field[0]);
        content[length++] = (uint8_t)(16 * high + hex_digit(field[1]));
    }
    lend(lent, length, content, 3 * line_number + salt);
}

void lend_first(const char *field) {
    lend_input(&first, field, 0);
}

static void lend_second(const char *field) {
    lend_input(&second, field, 1);
}

void lend_table(const char *field) {
    lend_input(&out, field, 2);
}

static void lend_out(const char *field) {
    lend(&out, number(field, LENT_MOST), NULL, 3 * line_number + 2);
}

void tell(uint64_t value) {
    const char *space = got_used == 0 ? "" : " ";
    got_used += (size_t)sprintf(got + got_used, "%s%llu", space, (unsigned long long)value);
}

void tell_flag(const bool *flag) {
    tell(*(const unsigned char *)flag);
}

static void tell_place(const struct lcf_place *place) {
    tell(place->used);
    tell_flag(&place->turned);
}

/* The bytes that the call says it wrote. All others must be as they were. */
static void tell_out(uint32_t refusal, size_t count) {
    written = refusal != 0 ? 0 : count < out.length ? count : out.length;
    got[got_used++] = ' ';
    if (written == 0) got[got_used++] = '-';
    for (size_t i = 0; i < written; i++) {
        got[got_used++] = "0123456789abcdef"[out.bytes[i] >> 4];
        got[got_used++] = "0123456789abcdef"[out.bytes[i] & 15];
    }
    got[got_used] = 0;
}

void tell_table(void) {
    tell_out(LCF_OK, out.length);
}

void tell_fault(const char *fault) {
    got_used += (size_t)sprintf(got + got_used, ", and %s", fault);
}

static void write_text(char **input) {
    uint32_t p = (uint32_t)number(input[0], UINT32_MAX), q = (uint32_t)number(input[1], UINT32_MAX);
    lend_out(input[2]);
    struct lcf_written answer = lcf_write_text(p, q, out.bytes, out.length);
    tell(answer.refusal);
    tell(answer.characters);
    tell(answer.quotients);
    tell_out(answer.refusal, answer.characters);
}

static void write_column(char **input) {
    uint32_t p = (uint32_t)number(input[0], UINT32_MAX), q = (uint32_t)number(input[1], UINT32_MAX);
    lend_out(input[2]);
    struct lcf_written answer = lcf_write_column(p, q, out.bytes, out.length);
    tell(answer.refusal);
    tell(answer.characters);
    tell(answer.quotients);
    tell_out(answer.refusal, LCF_COLUMN_BYTES);
}

static void tell_ratio(struct lcf_ratio answer) {
    tell(answer.refusal);
    tell(answer.numerator);
    tell(answer.denominator);
}

static void read_text(char **input) {
    lend_first(input[0]);
    tell_ratio(lcf_read_text(first.bytes, first.length));
}

static void read_column(char **input) {
    lend_first(input[0]);
    tell_ratio(lcf_read_column(first.bytes, first.length));
}

static void tell_text(struct lcf_text answer) {
    tell(answer.refusal);
    tell(answer.characters);
    tell_out(answer.refusal, answer.characters);
}

static void column_to_text(char **input) {
    lend_first(input[0]);
    lend_out(input[1]);
    tell_text(lcf_column_to_text(first.bytes, first.length, out.bytes, out.length));
}

static void text_to_column(char **input) {
    lend_first(input[0]);
    lend_out(input[1]);
    struct lcf_column answer = lcf_text_to_column(first.bytes, first.length, out.bytes, out.length);
    tell(answer.refusal);
    tell_out(answer.refusal, LCF_COLUMN_BYTES);
}

static void compare(char **input) {
    lend_first(input[0]);
    lend_second(input[1]);
    struct lcf_standing answer = lcf_compare(first.bytes, first.length, second.bytes, second.length);
    tell(answer.refusal);
    tell(answer.standing);
}

static void earlier(char **input) {
    lend_first(input[0]);
    lend_second(input[1]);
    tell(lcf_earlier(first.bytes, first.length, second.bytes, second.length));
}

static void cut(char **input) {
    size_t width = number(input[1], SIZE_MAX);
    lend_first(input[0]);
    lend_out(input[2]);
    tell_text(lcf_cut(first.bytes, first.length, width, out.bytes, out.length));
}

static void start(char **input) {
    lend_first(input[0]);
    struct lcf_started answer = lcf_start(first.bytes, first.length);
    tell(answer.refusal);
    tell_place(&answer.place);
}

static void step(char **input) {
    struct lcf_place place = {number(input[1], SIZE_MAX), number(input[2], 1) == 1};
    lend_first(input[0]);
    struct lcf_stepped answer = lcf_step(first.bytes, first.length, place);
    tell(answer.refusal);
    tell_flag(&answer.found);
    tell(answer.quotient);
    tell_place(&answer.place);
}

static struct call {
    const char *name;
    int inputs;
    void (*run)(char **input);
    unsigned long count;
} calls[] = {
    {"write_text", 3, write_text, 0},
    {"write_column", 3, write_column, 0},
    {"read_text", 1, read_text, 0},
    {"read_column", 1, read_column, 0},
    {"column_to_text", 2, column_to_text, 0},
    {"text_to_column", 2, text_to_column, 0},
    {"compare", 2, compare, 0},
    {"earlier", 2, earlier, 0},
    {"cut", 3, cut, 0},
    {"start", 1, start, 0},
    {"step", 3, step, 0},
    {"stock_put", 5, stock_put, 0},
    {"stock_take", 5, stock_take, 0},
    {"stock_find", 4, stock_find, 0},
    {"stock_from", 4, stock_from, 0},
};

enum { CALLS = sizeof calls / sizeof *calls };

static struct call *call_named(const char *name) {
    for (struct call *call = calls; call < calls + CALLS; call++)
        if (strcmp(call->name, name) == 0) return call;
    malformed();
    return NULL;
}

/* Cuts the fields before the equals sign out of a line. Gives what comes after it: the answer. */
static const char *cut_fields(char *copy, struct call **call, char **input) {
    char *answer = strstr(copy, " = ");
    int count = 0;
    if (answer == NULL) malformed();
    *answer = 0;
    char *space = strchr(copy, ' ');
    if (space != NULL) *space = 0;
    *call = call_named(copy);
    for (; space != NULL && count < MOST_INPUTS; count++) {
        input[count] = space + 1;
        space = strchr(space + 1, ' ');
        if (space != NULL) *space = 0;
    }
    if (space != NULL || count != (*call)->inputs) malformed();
    return answer + strlen(" = ");
}

/* Whether the call gives the line's answer and leaves all else as it was. */
static bool agrees(char *copy) {
    struct call *call;
    char *input[MOST_INPUTS];
    const char *answer = cut_fields(copy, &call, input);
    take_back(&first);
    take_back(&second);
    take_back(&out);
    written = got_used = 0;
    call->run(input);
    call->count++;
    bool kept = is_kept(&first, 0) && is_kept(&second, 0) && is_kept(&out, written);
    if (!kept) tell_fault("lent memory is changed");
    return strcmp(got, answer) == 0;
}

int main(void) {
    char *copy = NULL;
    size_t line_room = 0, copy_room = 0;
    unsigned long differing = 0;
    signal(SIGSEGV, faulted);
    signal(SIGBUS, faulted);
    for (ssize_t length; (length = getline(&line, &line_room, stdin)) > 0;) {
        line_number++;
        if (line[length - 1] != '\n') malformed();
        line[length - 1] = 0;
        if (copy_room < line_room) copy = realloc(copy, copy_room = line_room);
        memcpy(copy, line, (size_t)length);
        if (!agrees(copy) && differing++ < SHOWN) fprintf(stderr, "driver: %s\n   got: %s\n", line, got);
    }
    if (ferror(stdin) || line_number == 0) {
        fprintf(stderr, "driver: no cases, or they can't be read\n");
        return 1;
    }
    if (differing > 0) {
        fprintf(stderr, "driver: %lu of %lu calls differ\n", differing, line_number);
        return 1;
    }
    for (int i = 0; i < CALLS; i++) printf("%s%s %lu", i == 0 ? "driver: " : ", ", calls[i].name, calls[i].count);
    printf("\ndriver: %lu calls agree\n", line_number);
    return 0;
}
