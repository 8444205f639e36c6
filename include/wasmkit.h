/* wasmkit as a library: judges, lists, strips and edits WebAssembly 1.0 binary modules, and says where in its bytes an invalid one is wrong.
 *
 * Each call reads bytes that it is given, works all out, and only then writes to memory that it is given, but for lengths, which it
 * sets to 0 first. It keeps nothing, but for the room of a validator, prints nothing, and touches no file. Calls with memory of their
 * own may run at the same time in several threads; a validator serves one call at a time.
 *
 * An output is memory with a capacity, and a pointer to a length. The length that a call tells says how many bytes its answer has there:
 *
 *     WASMKIT_TOO_SMALL                       the lengths that are needed are told, and nothing else is written
 *     WASMKIT_NO_MEMORY, _BAD_ARGUMENT        the lengths told are 0, and nothing else is written
 *     any other result                        the answers stand in front of their memory, and what lies behind them stays as it was
 *
 * wasmkit_locate has a struct in place of text. Text is what the program `wasmkit` prints, each line with its LF, and not ended by a zero byte.
 *
 * A pointer may be null where the length or capacity beside it is 0: so one asks what is needed. These arguments are bad, and any
 * call answers WASMKIT_BAD_ARGUMENT to them: null with another length or capacity, null for a length that is told, a length or
 * capacity above PTRDIFF_MAX, a module or script of more than 2,147,483,647 bytes, a number that no enum below has, a `keep_valid`
 * that is neither 0 nor 1, a name to keep that is not UTF-8, null for a validator or for where its pointer goes, and an output that
 * lies in what another argument points to. That nothing else lies in a validator, no call can check.
 *
 * Link with libwk_ffi.a, and with the archive of the kit that passes its allocations on to malloc, realloc and free.
 */
#ifndef WASMKIT_H
#define WASMKIT_H

#include <stddef.h>
#include <stdint.h>

#ifdef __cplusplus
extern "C" {
#endif

/* The version of this header, 0.9.0: of major.minor.patch it is major * 1,000,000 + minor * 1,000 + patch. */
#define WASMKIT_VERSION 9000

/* No line that wasmkit_validate or wasmkit_validator_judge gives has more bytes, with its LF: with so much room neither answers
 * WASMKIT_TOO_SMALL. The longest that today's faults can give has 76. The lines of the other calls may be longer. */
#define WASMKIT_LINE_MAX 127

enum wasmkit_result {
    WASMKIT_OK = 0,
    WASMKIT_INVALID = 1,      /* the bytes spell a module, which is invalid; the text names its first fault */
    WASMKIT_MALFORMED = 2,    /* the bytes spell no module; the text names their first fault */
    WASMKIT_BAD_SCRIPT = 3,   /* the script is none; the text names its first faulty line */
    WASMKIT_REFUSED = 4,      /* some edit was refused, or the edited module is invalid; the module and the report are there */
    WASMKIT_NO_MEMORY = 5,    /* memory was wanting */
    WASMKIT_BAD_ARGUMENT = 6, /* an argument is bad */
    WASMKIT_TOO_SMALL = 7     /* an output has no room for its answer */
};

/* Judging a module of WASMKIT_CORE takes memory in line with its bytes. As WASMKIT_EXTENDED a module of 200 KB can take seconds and gigabytes, if
 * it has types of thousands of results (docs/VERDICTS.md, "Cost"): so set a limit to the size of modules that you do not trust. */
enum wasmkit_profile {
    WASMKIT_CORE = 0,    /* WebAssembly 1.0 */
    WASMKIT_EXTENDED = 1 /* with sign extension, and with blocks of any function type */
};

enum wasmkit_part { WASMKIT_HEADERS = 0, WASMKIT_DETAILS = 1, WASMKIT_CODE = 2, WASMKIT_USES = 3 };

/* In struct wasmkit_fault: there is no such number. */
#define WASMKIT_NONE UINT32_MAX

/* The fault of a module or of bytes that spell none, and where it is. */
struct wasmkit_fault {
    uint32_t fault;    /* WASMKIT_INVALID: 1 to 21 for V1 to V21 (docs/VERDICTS.md); WASMKIT_MALFORMED: 1 to 16 for R1 to R16
                          (docs/FORMAT.md); WASMKIT_OK: 0, and no other number is there */
    uint32_t section;  /* the id of the section, 1 to 11; none of malformed bytes */
    uint32_t item;     /* the item, counted from 0 in the section's own list; none of malformed bytes */
    uint32_t token;    /* the token, counted from 0 as in the line of the verdict; none where that names none, and of malformed bytes */
    uint32_t offset;   /* the offset in the bytes: of an invalid module that of the first byte of the token, or else of the item */
    uint32_t function; /* the index in the function index space of the function in whose body the fault is; none where it is in no body */
};

/* ---- The calls of libwk_ffi.a. They take no null and no bad length, and no output in what another argument points to: in C call
 * those below, which see to that. `uint32_t` results are of enum wasmkit_result. */

uint32_t wk_ffi_validate(const uint8_t *bytes, size_t length, uint32_t profile,
                         uint8_t *text, size_t text_capacity, size_t *text_length);
uint32_t wk_ffi_locate(const uint8_t *bytes, size_t length, uint32_t profile, uint32_t *numbers, size_t count);
uint32_t wk_ffi_sections(const uint8_t *bytes, size_t length,
                         uint8_t *text, size_t text_capacity, size_t *text_length);
uint32_t wk_ffi_list(const uint8_t *bytes, size_t length, uint32_t profile, uint32_t part,
                     uint8_t *text, size_t text_capacity, size_t *text_length);
uint32_t wk_ffi_strip(const uint8_t *bytes, size_t length, uint32_t profile, const uint8_t *keep, size_t keep_length,
                      uint8_t *out, size_t out_capacity, size_t *out_length,
                      uint8_t *text, size_t text_capacity, size_t *text_length);
uint32_t wk_ffi_edit(const uint8_t *bytes, size_t length, const uint8_t *script, size_t script_length,
                     uint32_t profile, uint32_t keep_valid,
                     uint8_t *out, size_t out_capacity, size_t *out_length,
                     uint8_t *text, size_t text_capacity, size_t *text_length);

uint32_t wk_ffi_version(void);

/* What lies at the pointer of a validator is known to the library alone. */
struct wasmkit_validator;

uint32_t wk_validator_new(struct wasmkit_validator **validator);
uint32_t wk_validator_judge(struct wasmkit_validator *validator, const uint8_t *bytes, size_t length, uint32_t profile,
                            uint8_t *text, size_t text_capacity, size_t *text_length);
uint32_t wk_validator_locate(struct wasmkit_validator *validator, const uint8_t *bytes, size_t length, uint32_t profile,
                             uint32_t *numbers, size_t count);
void wk_validator_free(struct wasmkit_validator *validator);

/* ---- What the calls check. */

struct wasmkit_span {
    const void *at;
    size_t length;
};

/* Whether a span is null though it has a length, or longer than any object. */
static inline int wasmkit_is_bad(struct wasmkit_span span) {
    return (span.at == NULL && span.length != 0) || span.length > (size_t)PTRDIFF_MAX;
}

static inline int wasmkit_meets(struct wasmkit_span a, struct wasmkit_span b) {
    uintptr_t x = (uintptr_t)a.at, y = (uintptr_t)b.at;
    return a.length != 0 && b.length != 0 && (x <= y ? y - x < a.length : x - y < b.length);
}

/* Whether a call can be made on these spans: first `inputs`, which are read, and then those that are written. */
static inline int wasmkit_can_call(const struct wasmkit_span *spans, size_t inputs, size_t count) {
    size_t i, j;
    for (i = 0; i < count; i++) {
        if (wasmkit_is_bad(spans[i])) return 0;
        for (j = i < inputs ? inputs : i + 1; j < count; j++) {
            if (wasmkit_meets(spans[i], spans[j])) return 0;
        }
    }
    return 1;
}

/* The bytes of no length have to lie somewhere too. */
static inline const uint8_t *wasmkit_in(const uint8_t *at) { return at ? at : (const uint8_t *)""; }

/* The numbers of struct wasmkit_fault, in its order. */
enum { WASMKIT_FAULT_NUMBERS = 6 };

/* Gives a result, and its numbers, where there are any and they are wanted. */
static inline enum wasmkit_result wasmkit_with_fault(
    uint32_t result, const uint32_t numbers[WASMKIT_FAULT_NUMBERS], struct wasmkit_fault *fault) {
    if (fault && result <= WASMKIT_MALFORMED) {
        fault->fault = numbers[0], fault->section = numbers[1], fault->item = numbers[2];
        fault->token = numbers[3], fault->offset = numbers[4], fault->function = numbers[5];
    }
    return (enum wasmkit_result)result;
}

/* ---- The calls. */

/* The version of the library, as WASMKIT_VERSION has that of the header. */
static inline uint32_t wasmkit_version(void) { return wk_ffi_version(); }

/* Judges a module: WASMKIT_OK, _INVALID or _MALFORMED. The text is `valid`, or the first fault. */
static inline enum wasmkit_result wasmkit_validate(
    const uint8_t *bytes, size_t length, uint32_t profile, uint8_t *text, size_t text_capacity, size_t *text_length) {
    struct wasmkit_span spans[] = {{bytes, length}, {text, text_capacity}, {text_length, sizeof(size_t)}};
    uint8_t none;
    if (text_length) *text_length = 0;
    if (!wasmkit_can_call(spans, 1, 3)) return WASMKIT_BAD_ARGUMENT;
    return (enum wasmkit_result)wk_ffi_validate(
        wasmkit_in(bytes), length, profile, text ? text : &none, text_capacity, text_length);
}

/* Judges a module as wasmkit_validate does, with numbers in place of the text: the fault and where it is. It is never WASMKIT_TOO_SMALL, and after
 * WASMKIT_NO_MEMORY and _BAD_ARGUMENT nothing is written. Where `fault` is null the result is all, and no place is looked for. */
static inline enum wasmkit_result wasmkit_locate(
    const uint8_t *bytes, size_t length, uint32_t profile, struct wasmkit_fault *fault) {
    struct wasmkit_span spans[] = {{bytes, length}, {fault, fault ? sizeof *fault : 0}};
    uint32_t numbers[WASMKIT_FAULT_NUMBERS];
    if (!wasmkit_can_call(spans, 1, 2)) return WASMKIT_BAD_ARGUMENT;
    return wasmkit_with_fault(
        wk_ffi_locate(wasmkit_in(bytes), length, profile, numbers, fault ? WASMKIT_FAULT_NUMBERS : 0), numbers, fault);
}

/* Lists the sections that stand in the bytes, with their contents unread, and the fault behind them, if there is one: WASMKIT_OK or
 * _MALFORMED. */
static inline enum wasmkit_result wasmkit_sections(
    const uint8_t *bytes, size_t length, uint8_t *text, size_t text_capacity, size_t *text_length) {
    struct wasmkit_span spans[] = {{bytes, length}, {text, text_capacity}, {text_length, sizeof(size_t)}};
    uint8_t none;
    if (text_length) *text_length = 0;
    if (!wasmkit_can_call(spans, 1, 3)) return WASMKIT_BAD_ARGUMENT;
    return (enum wasmkit_result)wk_ffi_sections(
        wasmkit_in(bytes), length, text ? text : &none, text_capacity, text_length);
}

/* Lists a part of a module, valid or not, as `wasmkit objdump` does: WASMKIT_OK or _MALFORMED. */
static inline enum wasmkit_result wasmkit_list(
    const uint8_t *bytes, size_t length, uint32_t profile, uint32_t part,
    uint8_t *text, size_t text_capacity, size_t *text_length) {
    struct wasmkit_span spans[] = {{bytes, length}, {text, text_capacity}, {text_length, sizeof(size_t)}};
    uint8_t none;
    if (text_length) *text_length = 0;
    if (!wasmkit_can_call(spans, 1, 3)) return WASMKIT_BAD_ARGUMENT;
    return (enum wasmkit_result)wk_ffi_list(
        wasmkit_in(bytes), length, profile, part, text ? text : &none, text_capacity, text_length);
}

/* Writes a module, valid or not, without its custom sections, but those of the name `keep`, which is UTF-8; without any where
 * `keep_length` is 0, so that those of the empty name never stay. WASMKIT_OK or _MALFORMED; there is text only where the bytes are
 * malformed, and a module only where they are not. */
static inline enum wasmkit_result wasmkit_strip(
    const uint8_t *bytes, size_t length, uint32_t profile, const uint8_t *keep, size_t keep_length,
    uint8_t *out, size_t out_capacity, size_t *out_length, uint8_t *text, size_t text_capacity, size_t *text_length) {
    struct wasmkit_span spans[] = {{bytes, length}, {keep, keep_length}, {out, out_capacity}, {out_length, sizeof(size_t)},
                                   {text, text_capacity}, {text_length, sizeof(size_t)}};
    uint8_t none[2];
    if (out_length) *out_length = 0;
    if (text_length) *text_length = 0;
    if (!wasmkit_can_call(spans, 2, 6)) return WASMKIT_BAD_ARGUMENT;
    return (enum wasmkit_result)wk_ffi_strip(
        wasmkit_in(bytes), length, profile, wasmkit_in(keep), keep_length,
        out ? out : &none[0], out_capacity, out_length, text ? text : &none[1], text_capacity, text_length);
}

/* Makes the edits of a script on a module, in order. Where `keep_valid` is 1, and not 0, an edit that would leave an invalid module
 * is refused. The text is the report: a line for each edit, and last the verdict. WASMKIT_OK where all edits were accepted and the
 * module is valid, _REFUSED where not, _MALFORMED or _BAD_SCRIPT with no module. */
static inline enum wasmkit_result wasmkit_edit(
    const uint8_t *bytes, size_t length, const uint8_t *script, size_t script_length, uint32_t profile, uint32_t keep_valid,
    uint8_t *out, size_t out_capacity, size_t *out_length, uint8_t *text, size_t text_capacity, size_t *text_length) {
    struct wasmkit_span spans[] = {{bytes, length}, {script, script_length}, {out, out_capacity}, {out_length, sizeof(size_t)},
                                   {text, text_capacity}, {text_length, sizeof(size_t)}};
    uint8_t none[2];
    if (out_length) *out_length = 0;
    if (text_length) *text_length = 0;
    if (!wasmkit_can_call(spans, 2, 6)) return WASMKIT_BAD_ARGUMENT;
    return (enum wasmkit_result)wk_ffi_edit(
        wasmkit_in(bytes), length, wasmkit_in(script), script_length, profile, keep_valid,
        out ? out : &none[0], out_capacity, out_length, text ? text : &none[1], text_capacity, text_length);
}

/* ---- A validator, for a host that judges many modules: the room in which one is read and judged is kept for the next. No answer
 * depends on what was judged before. It is used by one thread at a time, and may go on to another, as by a lock. Until it is freed it
 * keeps as much of each kind of room as any module took: to give it back, free it and make another. */

/* Makes a validator: WASMKIT_OK, or WASMKIT_NO_MEMORY, and then its pointer is null. */
static inline enum wasmkit_result wasmkit_validator_new(struct wasmkit_validator **validator) {
    if (!validator) return WASMKIT_BAD_ARGUMENT;
    *validator = NULL;
    return (enum wasmkit_result)wk_validator_new(validator);
}

/* Judges a module, and answers what wasmkit_validate does. The validator judges on after any answer, WASMKIT_NO_MEMORY too. */
static inline enum wasmkit_result wasmkit_validator_judge(
    struct wasmkit_validator *validator, const uint8_t *bytes, size_t length, uint32_t profile,
    uint8_t *text, size_t text_capacity, size_t *text_length) {
    struct wasmkit_span spans[] = {{bytes, length}, {text, text_capacity}, {text_length, sizeof(size_t)}};
    uint8_t none;
    if (text_length) *text_length = 0;
    if (!validator || !wasmkit_can_call(spans, 1, 3)) return WASMKIT_BAD_ARGUMENT;
    return (enum wasmkit_result)wk_validator_judge(
        validator, wasmkit_in(bytes), length, profile, text ? text : &none, text_capacity, text_length);
}

/* Judges a module, and answers what wasmkit_locate does. The validator judges on after any answer, WASMKIT_NO_MEMORY too. What it takes to look
 * for the place of a fault is not kept. */
static inline enum wasmkit_result wasmkit_validator_locate(
    struct wasmkit_validator *validator, const uint8_t *bytes, size_t length, uint32_t profile, struct wasmkit_fault *fault) {
    struct wasmkit_span spans[] = {{bytes, length}, {fault, fault ? sizeof *fault : 0}};
    uint32_t numbers[WASMKIT_FAULT_NUMBERS];
    if (!validator || !wasmkit_can_call(spans, 1, 2)) return WASMKIT_BAD_ARGUMENT;
    return wasmkit_with_fault(
        wk_validator_locate(validator, wasmkit_in(bytes), length, profile, numbers, fault ? WASMKIT_FAULT_NUMBERS : 0), numbers, fault);
}

/* Frees a validator, which is not used again. Of null it frees nothing. */
static inline void wasmkit_validator_free(struct wasmkit_validator *validator) {
    if (validator) wk_validator_free(validator);
}

#ifdef __cplusplus
}
#endif

#endif
