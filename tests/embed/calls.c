/* Makes the calls of wasmkit.h that standard input asks for, one a line, and prints what each answers:
 *
 *     validate PROFILE MODULE            sections MODULE            list PROFILE PART MODULE
 *     strip PROFILE KEEP MODULE          edit PROFILE KEEP_VALID MODULE SCRIPT
 *     judge PROFILE BEFORE MODULE        a validator judges BEFORE and then MODULE, or MODULE alone where BEFORE is -
 *     locate PROFILE MODULE              the numbers of MODULE's fault, by a call of its own and by the validator that is kept
 *     version                            the versions of the header and of the library
 *     bad                                each call with bad arguments
 *     many MODULE MODULE MODULE MODULE   a validator judges these in turn, 100,000 times in all
 *
 * PROFILE, PART and KEEP_VALID are numbers, MODULE and SCRIPT files, and KEEP is a name, or - for none. Each call is made with no room at
 * all, with a byte less than it needs, with all that it needs and with more. Each judgement is made by a validator of its own, and by one
 * that is kept from one line to the next. Numbers are asked for with memory for none to eight. What is wrong is printed after `wrong:`.
 */
#define _XOPEN_SOURCE 700
#include <sys/resource.h>

#include <stdio.h>
#include <stdlib.h>
#include <string.h>

#include "wasmkit.h"

enum { FILL = 0xA5, MORE = 7, PAGE = 4, FEW = 1000, MANY = 100000, MOST = 4, NUMBERS = 6, PLACES = 8 };

struct bytes {
    uint8_t *at;
    size_t length;
};

/* What a line asks for. */
struct question {
    char call[16];
    unsigned profile, number;
    struct bytes module, other;
};

static const char *asked = "";

/* The validator that is kept from one line to the next. */
static struct wasmkit_validator *kept;

static void check(int is_right, const char *what) {
    if (!is_right) printf("wrong: %s: %s\n", asked, what);
}

static uint8_t *filled(size_t length) {
    uint8_t *at = malloc(length);
    if (!at && length) exit(5);
    if (at) memset(at, FILL, length);
    return at;
}

static int is_fill(const uint8_t *at, size_t length) {
    size_t i;
    for (i = 0; i < length; i++) {
        if (at[i] != FILL) return 0;
    }
    return 1;
}

static struct bytes load(const char *name) {
    FILE *file = fopen(name, "rb");
    struct bytes bytes;
    long length;
    if (!file || fseek(file, 0, SEEK_END) || (length = ftell(file)) < 0) exit(4);
    rewind(file);
    bytes.length = (size_t)length;
    bytes.at = filled(bytes.length);
    if (fread(bytes.at, 1, bytes.length, file) != bytes.length || fclose(file)) exit(4);
    return bytes;
}

static struct wasmkit_validator *new_validator(void) {
    struct wasmkit_validator *validator;
    if (wasmkit_validator_new(&validator) != WASMKIT_OK || !validator) exit(5);
    return validator;
}

/* Judges with a new validator, behind another module where one is given, and looks that the one that is kept answers the same. */
static enum wasmkit_result judged(const struct question *q, uint8_t *text, size_t text_capacity, size_t *text_length) {
    struct wasmkit_validator *validator = new_validator();
    uint8_t line[256], *again = filled(text_capacity);
    size_t line_length, again_length = 99;
    enum wasmkit_result result, other;
    if (q->other.at) {
        result = wasmkit_validator_judge(validator, q->other.at, q->other.length, q->profile, line, sizeof line, &line_length);
        check(result <= WASMKIT_MALFORMED && line_length, "the module before has no verdict");
    }
    result = wasmkit_validator_judge(validator, q->module.at, q->module.length, q->profile, text, text_capacity, text_length);
    wasmkit_validator_free(validator);
    other = wasmkit_validator_judge(kept, q->module.at, q->module.length, q->profile, again, text_capacity, &again_length);
    check(other == result && again_length == *text_length, "the validator that is kept answers otherwise");
    check(!text_capacity || !memcmp(again, text, text_capacity), "the validator that is kept leaves another text");
    free(again);
    return result;
}

/* Makes the call with these capacities. */
static enum wasmkit_result answer(const struct question *q, uint8_t *out, size_t out_capacity, size_t *out_length, uint8_t *text,
                                  size_t text_capacity, size_t *text_length) {
    const uint8_t *at = q->module.at, *other = q->other.at;
    size_t length = q->module.length, other_length = q->other.length;
    *out_length = 0;
    if (!strcmp(q->call, "validate")) return wasmkit_validate(at, length, q->profile, text, text_capacity, text_length);
    if (!strcmp(q->call, "judge")) return judged(q, text, text_capacity, text_length);
    if (!strcmp(q->call, "sections")) return wasmkit_sections(at, length, text, text_capacity, text_length);
    if (!strcmp(q->call, "list")) return wasmkit_list(at, length, q->profile, q->number, text, text_capacity, text_length);
    if (!strcmp(q->call, "strip"))
        return wasmkit_strip(at, length, q->profile, other, other_length, out, out_capacity, out_length, text, text_capacity,
                             text_length);
    return wasmkit_edit(at, length, other, other_length, q->profile, q->number, out, out_capacity, out_length, text, text_capacity,
                        text_length);
}

/* Makes the call with that room, which is too little, and looks that it tells what it needs and writes nothing. */
static void try_small(const struct question *q, size_t out_room, size_t text_room, size_t out_needed, size_t text_needed) {
    uint8_t *out = filled(out_room), *text = filled(text_room);
    size_t out_length = 99, text_length = 99;
    enum wasmkit_result result = answer(q, out, out_room, &out_length, text, text_room, &text_length);
    check(result == WASMKIT_TOO_SMALL, "not too small");
    check(out_length == out_needed && text_length == text_needed, "another length is told");
    check(is_fill(out, out_room) && is_fill(text, text_room), "something is written where there is too little room");
    free(out), free(text);
}

/* Makes the call with room for that much more than it needs, and prints what it answers, or looks that it is that. */
static void try_room(const struct question *q, size_t more, size_t out_needed, size_t text_needed, int prints) {
    uint8_t *out = filled(out_needed + more), *text = filled(text_needed + more);
    size_t i, out_length = 99, text_length = 99;
    enum wasmkit_result result = answer(q, out, out_needed + more, &out_length, text, text_needed + more, &text_length);
    check(out_length == out_needed && text_length == text_needed, "with room another length is told");
    check(!more || (is_fill(out + out_needed, more) && is_fill(text + text_needed, more)), "something is written behind an answer");
    if (prints) {
        printf("result %d\n", result);
        for (i = 0; i < out_needed; i++) printf("%s%02x%s", i ? "" : "out ", out[i], i + 1 < out_needed ? "" : "\n");
        fwrite(text, 1, text_needed, stdout);
    }
    free(out), free(text);
}

static void run(const struct question *q) {
    size_t out_needed = 99, text_needed = 99;
    enum wasmkit_result result = answer(q, NULL, 0, &out_needed, NULL, 0, &text_needed);
    check((result == WASMKIT_TOO_SMALL) == (out_needed != 0 || text_needed != 0), "with no room it is not too small, or is for nothing");
    if (!strcmp(q->call, "validate") || !strcmp(q->call, "judge")) check(text_needed <= WASMKIT_LINE_MAX, "a line is too long");
    if (out_needed) try_small(q, out_needed - 1, text_needed, out_needed, text_needed);
    if (text_needed) try_small(q, out_needed, text_needed - 1, out_needed, text_needed);
    try_room(q, MORE, out_needed, text_needed, 0);
    try_room(q, 0, out_needed, text_needed, 1);
}

/* ---- numbers */

/* Looks that the numbers of a fault are these in front of memory, and that what is behind them is as it was. */
static void are_numbers(const uint32_t *found, size_t count, const struct wasmkit_fault *fault) {
    const uint32_t wanted[NUMBERS] = {fault->fault, fault->section, fault->item, fault->token, fault->offset, fault->function};
    size_t told = count < NUMBERS ? 0 : NUMBERS;
    check(!memcmp(found, wanted, told * sizeof *wanted), "other numbers");
    check(is_fill((const uint8_t *)(found + told), (PLACES - told) * sizeof *found), "something is written where it should not be");
}

/* Makes the calls of the library with memory for so many numbers. */
static void try_count(const struct question *q, size_t count, enum wasmkit_result result, const struct wasmkit_fault *fault) {
    const uint8_t *at = wasmkit_in(q->module.at);
    uint32_t *found = (uint32_t *)filled(PLACES * sizeof *found), *kept_found = (uint32_t *)filled(PLACES * sizeof *found);
    check(wk_ffi_locate(at, q->module.length, q->profile, found, count) == (uint32_t)result, "another result of the library");
    check(wk_validator_locate(kept, at, q->module.length, q->profile, kept_found, count) == (uint32_t)result, "another one of the validator");
    are_numbers(found, count, fault);
    are_numbers(kept_found, count, fault);
    free(found), free(kept_found);
}

static void locate(const struct question *q) {
    struct wasmkit_fault fault, other;
    const uint8_t *at = q->module.at;
    size_t count, length = q->module.length;
    enum wasmkit_result result = wasmkit_locate(at, length, q->profile, &fault);
    check(wasmkit_validator_locate(kept, at, length, q->profile, &other) == result, "the validator answers otherwise");
    check(!memcmp(&fault, &other, sizeof fault), "the validator tells another fault");
    check(wasmkit_locate(at, length, q->profile, NULL) == result, "another result where no fault is asked for");
    check(wasmkit_validator_locate(kept, at, length, q->profile, NULL) == result, "another one of the validator where none is asked for");
    for (count = 0; count <= PLACES; count++) try_count(q, count, result, &fault);
    printf("result %d\n%u %u %u", result, fault.fault, fault.section, fault.item);
    printf(" %u %u %u\n", fault.token, fault.offset, fault.function);
}

/* ---- memory */

/* The most memory that the process had at one time, in KiB. */
static long peak(void) {
    struct rusage usage;
    if (getrusage(RUSAGE_SELF, &usage)) exit(4);
    return usage.ru_maxrss;
}

/* A verdict, with its text. */
struct verdict {
    enum wasmkit_result result;
    uint8_t text[256];
    size_t length;
};

static int is_same(const struct verdict *one, const struct verdict *other) {
    return one->result == other->result && one->length == other->length && !memcmp(one->text, other->text, one->length);
}

/* Has a new validator judge modules in turn, in both profiles, looks that each verdict is that of a call of its own, and that the process
 * takes no more memory for many of them than for few. */
static void try_many(const struct bytes *modules, size_t count) {
    struct wasmkit_validator *validator = new_validator();
    struct verdict wanted[2 * MOST], told;
    struct wasmkit_fault where;
    size_t i;
    long few = 0;
    for (i = 0; i < 2 * count; i++) {
        const struct bytes *it = &modules[i % count];
        struct verdict *its = &wanted[i];
        its->result = wasmkit_validate(it->at, it->length, i / count, its->text, sizeof its->text, &its->length);
    }
    for (i = 0; i < MANY; i++) {
        const struct bytes *it = &modules[i % count];
        uint32_t profile = i / count % 2;
        told.result = wasmkit_validator_judge(validator, it->at, it->length, profile, told.text, sizeof told.text, &told.length);
        check(wasmkit_validator_locate(validator, it->at, it->length, profile, &where) == told.result, "another result with numbers");
        if (!is_same(&told, &wanted[i % (2 * count)])) check(0, "another verdict than by a call of its own");
        if (i + 1 == FEW) few = peak();
    }
    if (peak() > few + 2 * PAGE) printf("wrong: %s: %ld KiB after %d judgements, %ld KiB after %d\n", asked, few, FEW, peak(), MANY);
    wasmkit_validator_free(validator);
    puts("result 0");
}

/* ---- bad arguments */

static uint8_t module[8] = {0, 'a', 's', 'm', 1, 0, 0, 0};
static uint8_t out[64], text[64];
static size_t out_length, text_length;
static struct wasmkit_fault fault;

/* Looks that a call with bad arguments said so, told no length, and left all as it was. */
static void is_refused(enum wasmkit_result result, const char *what) {
    asked = what;
    check(result == WASMKIT_BAD_ARGUMENT, "not a bad argument");
    check(out_length == 0 && text_length == 0, "a length is told");
    check(is_fill(out, sizeof out) && is_fill(text, sizeof text), "something is written");
    check(is_fill((const uint8_t *)&fault, sizeof fault), "a fault is written");
    check(!memcmp(module, "\0asm\1\0\0\0", 8), "the module is changed");
    out_length = text_length = 0;
}

#define REFUSED(call) is_refused(call, #call)
#define TEXT text, sizeof text, &text_length
#define OUT out, sizeof out, &out_length

/* Modules and scripts that are a byte too long, in memory that is there and not looked at. */
static void try_long(void) {
    const size_t long_one = 2147483648u;
    uint8_t *vast = malloc(long_one);
    if (!vast) return;
    vast[0] = 0;
    REFUSED(wasmkit_validate(vast, long_one, 0, TEXT));
    REFUSED(wasmkit_validator_judge(kept, vast, long_one, 0, TEXT));
    REFUSED(wasmkit_locate(vast, long_one, 0, &fault));
    REFUSED(wasmkit_locate(vast, long_one, 0, NULL));
    REFUSED(wasmkit_validator_locate(kept, vast, long_one, 0, &fault));
    REFUSED(wasmkit_sections(vast, long_one, TEXT));
    REFUSED(wasmkit_list(vast, long_one, 0, 0, TEXT));
    REFUSED(wasmkit_strip(vast, long_one, 0, NULL, 0, OUT, TEXT));
    REFUSED(wasmkit_edit(vast, long_one, NULL, 0, 0, 0, OUT, TEXT));
    REFUSED(wasmkit_edit(module, 8, vast, long_one, 0, 0, OUT, TEXT));
    free(vast);
}

/* Arguments of a validator, which judges on behind them. */
static void try_bad_validator(void) {
    const size_t much = (size_t)PTRDIFF_MAX + 1, most = (size_t)-1;
    struct wasmkit_validator *none = NULL;
    REFUSED(wasmkit_validator_new(NULL));
    REFUSED(wasmkit_validator_judge(none, module, 8, 0, TEXT));
    REFUSED(wasmkit_validator_judge(none, NULL, 8, 2, TEXT));
    REFUSED(wasmkit_validator_judge(kept, NULL, 8, 0, TEXT));
    REFUSED(wasmkit_validator_judge(kept, module, much, 0, TEXT));
    REFUSED(wasmkit_validator_judge(kept, module, 8, 2, TEXT));
    REFUSED(wasmkit_validator_judge(kept, module, 8, 0, NULL, 64, &text_length));
    REFUSED(wasmkit_validator_judge(kept, module, 8, 0, text, most, &text_length));
    REFUSED(wasmkit_validator_judge(kept, module, 8, 0, text, 64, NULL));
    REFUSED(wasmkit_validator_judge(kept, module, 8, 0, module + 7, 1, &text_length));
    REFUSED(wasmkit_validator_judge(kept, module, 8, 0, (uint8_t *)&text_length, sizeof text_length, &text_length));
    REFUSED(wasmkit_validator_locate(none, module, 8, 0, &fault));
    REFUSED(wasmkit_validator_locate(kept, NULL, 8, 0, &fault));
    REFUSED(wasmkit_validator_locate(kept, module, much, 0, NULL));
    REFUSED(wasmkit_validator_locate(kept, module, 8, 2, &fault));
    REFUSED(wasmkit_validator_locate(kept, module, 8, 2, NULL));
    REFUSED(wasmkit_validator_locate(kept, (uint8_t *)&fault, sizeof fault, 0, &fault));
    wasmkit_validator_free(none);
    check(wasmkit_validator_judge(kept, module, 8, 0, TEXT) == WASMKIT_OK && text_length == 6 && !memcmp(text, "valid\n", 6),
          "the validator does not judge on");
    memset(text, FILL, sizeof text);
    text_length = 0;
}

static void try_bad(void) {
    const size_t much = (size_t)PTRDIFF_MAX + 1, most = (size_t)-1;
    memset(out, FILL, sizeof out);
    memset(text, FILL, sizeof text);
    memset(&fault, FILL, sizeof fault);
    REFUSED(wasmkit_locate(NULL, 8, 0, &fault));
    REFUSED(wasmkit_locate(module, much, 0, &fault));
    REFUSED(wasmkit_locate(module, most, 0, NULL));
    REFUSED(wasmkit_locate(module, 8, 2, &fault));
    REFUSED(wasmkit_locate(module, 8, (uint32_t)-1, NULL));
    REFUSED(wasmkit_locate((uint8_t *)&fault, sizeof fault, 0, &fault));
    REFUSED(wasmkit_locate((uint8_t *)&fault + sizeof fault - 1, 1, 0, &fault));
    REFUSED(wasmkit_validate(NULL, 8, 0, TEXT));
    REFUSED(wasmkit_validate(module, much, 0, TEXT));
    REFUSED(wasmkit_validate(module, most, 0, TEXT));
    REFUSED(wasmkit_validate(module, 8, 2, TEXT));
    REFUSED(wasmkit_validate(module, 8, (uint32_t)-1, TEXT));
    REFUSED(wasmkit_validate(module, 8, 0, NULL, 64, &text_length));
    REFUSED(wasmkit_validate(module, 8, 0, text, most, &text_length));
    REFUSED(wasmkit_validate(module, 8, 0, text, 64, NULL));
    REFUSED(wasmkit_validate(module, 8, 0, module + 7, 1, &text_length));
    REFUSED(wasmkit_validate(module, 8, 0, (uint8_t *)&text_length, sizeof text_length, &text_length));
    REFUSED(wasmkit_sections(NULL, 1, TEXT));
    REFUSED(wasmkit_sections(module, most, TEXT));
    REFUSED(wasmkit_sections(module, 8, NULL, 1, &text_length));
    REFUSED(wasmkit_sections(module, 8, text, much, &text_length));
    REFUSED(wasmkit_sections(module, 8, text, 64, NULL));
    REFUSED(wasmkit_sections(module, 8, module, 8, &text_length));
    REFUSED(wasmkit_list(NULL, 8, 0, 0, TEXT));
    REFUSED(wasmkit_list(module, 8, 2, 0, TEXT));
    REFUSED(wasmkit_list(module, 8, 0, 4, TEXT));
    REFUSED(wasmkit_list(module, 8, 0, 0, NULL, 64, &text_length));
    REFUSED(wasmkit_list(module, 8, 0, 0, text, 64, NULL));
    REFUSED(wasmkit_strip(NULL, 8, 0, NULL, 0, OUT, TEXT));
    REFUSED(wasmkit_strip(module, 8, 3, NULL, 0, OUT, TEXT));
    REFUSED(wasmkit_strip(module, 8, 0, NULL, 1, OUT, TEXT));
    REFUSED(wasmkit_strip(module, 8, 0, (const uint8_t *)"\xff", 1, OUT, TEXT));
    REFUSED(wasmkit_strip(module, 8, 0, NULL, 0, NULL, 64, &out_length, TEXT));
    REFUSED(wasmkit_strip(module, 8, 0, NULL, 0, out, 64, NULL, TEXT));
    REFUSED(wasmkit_strip(module, 8, 0, NULL, 0, OUT, NULL, 64, &text_length));
    REFUSED(wasmkit_strip(module, 8, 0, NULL, 0, OUT, text, 64, NULL));
    REFUSED(wasmkit_strip(module, 8, 0, NULL, 0, module, 8, &out_length, TEXT));
    REFUSED(wasmkit_strip(module, 8, 0, NULL, 0, out, 64, &text_length, TEXT));
    REFUSED(wasmkit_strip(module, 8, 0, NULL, 0, text, 64, &out_length, TEXT));
    REFUSED(wasmkit_edit(NULL, 8, NULL, 0, 0, 0, OUT, TEXT));
    REFUSED(wasmkit_edit(module, 8, NULL, 1, 0, 0, OUT, TEXT));
    REFUSED(wasmkit_edit(module, 8, NULL, 0, 2, 0, OUT, TEXT));
    REFUSED(wasmkit_edit(module, 8, NULL, 0, 0, 2, OUT, TEXT));
    REFUSED(wasmkit_edit(module, 8, NULL, 0, 0, 0, NULL, 64, &out_length, TEXT));
    REFUSED(wasmkit_edit(module, 8, NULL, 0, 0, 0, out, most, &out_length, TEXT));
    REFUSED(wasmkit_edit(module, 8, NULL, 0, 0, 0, out, 64, NULL, TEXT));
    REFUSED(wasmkit_edit(module, 8, NULL, 0, 0, 0, OUT, NULL, 64, &text_length));
    REFUSED(wasmkit_edit(module, 8, NULL, 0, 0, 0, OUT, text, 64, NULL));
    REFUSED(wasmkit_edit(module, 8, text, 64, 0, 0, OUT, TEXT));
    REFUSED(wasmkit_edit(module, 8, module, 8, 0, 0, out, 64, &out_length, out + 63, 1, &text_length));
    try_bad_validator();
    try_long();
    puts("result 6");
}

/* Reads what is asked, and whether it is a call. */
static int read_question(const char *line, struct question *q) {
    char first[256], second[256];
    memset(q, 0, sizeof *q);
    if (sscanf(line, "%15s", q->call) != 1) return 0;
    if (sscanf(line, "validate %u %255s", &q->profile, first) == 2) return q->module = load(first), 1;
    if (sscanf(line, "locate %u %255s", &q->profile, first) == 2) return q->module = load(first), 1;
    if (sscanf(line, "judge %u %255s %255s", &q->profile, second, first) == 3) {
        if (strcmp(second, "-")) q->other = load(second);
        return q->module = load(first), 1;
    }
    if (sscanf(line, "sections %255s", first) == 1) return q->module = load(first), 1;
    if (sscanf(line, "list %u %u %255s", &q->profile, &q->number, first) == 3) return q->module = load(first), 1;
    if (sscanf(line, "strip %u %255s %255s", &q->profile, second, first) == 3) {
        q->module = load(first);
        q->other.length = strcmp(second, "-") ? strlen(second) : 0;
        q->other.at = filled(q->other.length);
        if (q->other.length) memcpy(q->other.at, second, q->other.length);
        return 1;
    }
    if (sscanf(line, "edit %u %u %255s %255s", &q->profile, &q->number, first, second) != 4) return 0;
    return q->module = load(first), q->other = load(second), 1;
}

/* Reads the modules of a line that asks for many judgements, and has them made. */
static void read_many(const char *line) {
    char names[MOST][256];
    struct bytes modules[MOST];
    size_t i;
    if (sscanf(line, "many %255s %255s %255s %255s", names[0], names[1], names[2], names[3]) != MOST) exit(4);
    for (i = 0; i < MOST; i++) modules[i] = load(names[i]);
    try_many(modules, MOST);
    for (i = 0; i < MOST; i++) free(modules[i].at);
}

int main(void) {
    char line[1024];
    struct question q;
    kept = new_validator();
    while (fgets(line, sizeof line, stdin)) {
        line[strcspn(line, "\n")] = 0;
        printf("== %s\n", line);
        asked = line;
        if (!strcmp(line, "bad")) {
            try_bad();
        } else if (!strncmp(line, "many ", 5)) {
            read_many(line);
        } else if (!strcmp(line, "version")) {
            printf("header %u\nlibrary %u\n", WASMKIT_VERSION, wasmkit_version());
        } else if (read_question(line, &q)) {
            if (!strcmp(q.call, "locate")) locate(&q);
            else run(&q);
            free(q.module.at), free(q.other.at);
        } else {
            puts("wrong: no call");
        }
    }
    wasmkit_validator_free(kept);
    return 0;
}
