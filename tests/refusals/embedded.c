/* One call of the library in `in.wasm`, and by `edits`, between two allocations of agreed sizes (`refuse.c`).
 *
 *     embedded CALL PROFILE NUMBER     CALL is validate, locate, yesno, sections, list, strip, edit, new, judge or judge-locate; NUMBER is
 *                                      a part, whether to keep valid, or whether the validator that judges has judged before
 *
 * It prints `fine`, `memory` where the call answers want of memory and leaves no length, no number and no byte of an output changed, or
 * `wrong` and the result. `locate` and `judge-locate` tell the numbers of a fault, of a module that has one, and `yesno` the result alone. Behind
 * `new`, `judge` and `judge-locate` a validator judges two other modules and this one once more, with no allocation refused: `fine` and
 * `memory` say too that it answers what the call without a validator does. */
#include "wasmkit.h"

#include <stdio.h>
#include <stdlib.h>
#include <string.h>

enum { ARM = 770001, DISARM = 770002, FILL = 0xA5, ROOM = 4096 };

static uint8_t module[ROOM], script[ROOM], out[ROOM], text[ROOM];
static size_t out_length, text_length;
static struct wasmkit_fault fault;
static struct wasmkit_validator *validator;

/* The mark is used, so that no compiler leaves it out. */
static void mark(size_t size) {
    void *volatile made = malloc(size);
    free(made);
}

static size_t load(const char *name, uint8_t *bytes) {
    FILE *file = fopen(name, "rb");
    size_t length = file ? fread(bytes, 1, ROOM, file) : 0;
    if (file) fclose(file);
    return length;
}

static int is_untouched(const void *of, size_t length) {
    const uint8_t *bytes = of;
    size_t at;
    for (at = 0; at < length; at++) {
        if (bytes[at] != FILL) return 0;
    }
    return 1;
}

static enum wasmkit_result call(const char *name, uint32_t profile, uint32_t number, size_t length, size_t script_length) {
    if (!strcmp(name, "validate")) return wasmkit_validate(module, length, profile, text, ROOM, &text_length);
    if (!strcmp(name, "locate")) return wasmkit_locate(module, length, profile, &fault);
    if (!strcmp(name, "yesno")) return wasmkit_locate(module, length, profile, NULL);
    if (!strcmp(name, "judge-locate")) return wasmkit_validator_locate(validator, module, length, profile, &fault);
    if (!strcmp(name, "sections")) return wasmkit_sections(module, length, text, ROOM, &text_length);
    if (!strcmp(name, "list")) return wasmkit_list(module, length, profile, number, text, ROOM, &text_length);
    if (!strcmp(name, "strip")) {
        return wasmkit_strip(
            module, length, profile, (const uint8_t *)"c", 1, out, ROOM, &out_length, text, ROOM, &text_length);
    }
    if (!strcmp(name, "new")) return wasmkit_validator_new(&validator);
    if (!strcmp(name, "judge")) return wasmkit_validator_judge(validator, module, length, profile, text, ROOM, &text_length);
    return wasmkit_edit(module, length, script, script_length, profile, number, out, ROOM, &out_length, text, ROOM, &text_length);
}

/* Whether the validator judges these bytes as the call without one does. */
static int judges_alike(uint32_t profile, const uint8_t *bytes, size_t length) {
    static uint8_t wanted[ROOM], found[ROOM];
    size_t wanted_length, found_length;
    return wasmkit_validate(bytes, length, profile, wanted, ROOM, &wanted_length)
            == wasmkit_validator_judge(validator, bytes, length, profile, found, ROOM, &found_length)
        && wanted_length && wanted_length == found_length && !memcmp(wanted, found, wanted_length);
}

/* Whether the validator judges on, where there is none a new one: the empty module, one whose start function is not there, and the module. */
static int judges_on(uint32_t profile, size_t length) {
    static const uint8_t others[11] = {0, 'a', 's', 'm', 1, 0, 0, 0, 8, 1, 0};
    if (!validator && wasmkit_validator_new(&validator) != WASMKIT_OK) return 0;
    return judges_alike(profile, others, 8) && judges_alike(profile, others, 11) && judges_alike(profile, module, length);
}

/* Whether the call that began well ended well, with what it tells. */
static int is_fine(const char *name, enum wasmkit_result result) {
    int is_wrong = result == WASMKIT_INVALID || result == WASMKIT_MALFORMED;
    if (!strcmp(name, "yesno")) return is_wrong && is_untouched(&fault, sizeof fault);
    if (strstr(name, "locate")) return is_wrong && fault.fault - 1 < 21 && fault.offset < ROOM;
    return (result == WASMKIT_OK || result == WASMKIT_REFUSED) && (out_length + text_length || !strcmp(name, "new"));
}

/* Whether all outputs are as they were. */
static int is_nothing_written(void) {
    return !out_length && !text_length && is_untouched(out, ROOM) && is_untouched(text, ROOM) && is_untouched(&fault, sizeof fault);
}

int main(int count, char **words) {
    enum wasmkit_result result;
    size_t length = load("in.wasm", module), script_length = load("edits", script);
    uint32_t profile, number;
    int is_new, is_right;
    if (count != 4) return 2;
    profile = (uint32_t)atol(words[2]), number = (uint32_t)atol(words[3]), is_new = !strcmp(words[1], "new");
    if (!strncmp(words[1], "judge", 5) && wasmkit_validator_new(&validator) != WASMKIT_OK) return 5;
    /* Twice, so that each room has grown: what was kept of types asks for its own the second time, and is let go where that is refused. */
    if (validator && number && (!judges_on(profile, length) || !judges_on(profile, length))) return 5;
    memset(out, FILL, ROOM);
    memset(text, FILL, ROOM);
    memset(&fault, FILL, sizeof fault);
    mark(ARM);
    result = call(words[1], profile, number, length, script_length);
    mark(DISARM);
    is_right = !is_new || !validator == (result == WASMKIT_NO_MEMORY);
    if (is_new || validator) is_right = is_right && judges_on(profile, length);
    if (is_right && result == WASMKIT_NO_MEMORY && is_nothing_written()) {
        puts("memory");
    } else if (is_right && is_fine(words[1], result)) {
        puts("fine");
    } else {
        printf("wrong: result %d\n", (int)result);
    }
    wasmkit_validator_free(validator);
    return 0;
}
