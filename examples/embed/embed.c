/* Edits a module by a script through wasmkit as a library, and judges what comes out:
 *
 *     embed MODULE SCRIPT OUT
 */
#include <stdio.h>
#include <stdlib.h>

#include "wasmkit.h"

static uint8_t *load(const char *name, size_t *length) {
    FILE *file = fopen(name, "rb");
    uint8_t *bytes = NULL;
    if (!file || fseek(file, 0, SEEK_END)) exit(4);
    *length = (size_t)ftell(file);
    rewind(file);
    if (!(bytes = malloc(*length + 1)) || fread(bytes, 1, *length, file) != *length) exit(4);
    fclose(file);
    return bytes;
}

int main(int argc, char **argv) {
    if (argc != 4) return 3;
    size_t length, script_length, out_length, text_length;
    uint8_t *bytes = load(argv[1], &length), *script = load(argv[2], &script_length);
    size_t capacity = 2 * length + script_length + 64, text_capacity = 256;
    uint8_t *out = malloc(capacity), *text = malloc(text_capacity);
    enum wasmkit_result result;
    /* A second time with the lengths that are needed, where the first guess was too small. */
    while ((result = wasmkit_edit(bytes, length, script, script_length, WASMKIT_CORE, 0, out, capacity, &out_length,
                                  text, text_capacity, &text_length)) == WASMKIT_TOO_SMALL) {
        if (!(out = realloc(out, capacity = out_length + 1)) || !(text = realloc(text, text_capacity = text_length + 1))) return 5;
    }
    printf("edit: %d\n%.*s", result, (int)text_length, (const char *)text);
    if (result != WASMKIT_OK && result != WASMKIT_REFUSED) return result;
    FILE *file = fopen(argv[3], "wb");
    if (!file || fwrite(out, 1, out_length, file) != out_length || fclose(file)) return 4;
    uint8_t line[256];
    result = wasmkit_validate(out, out_length, WASMKIT_CORE, line, sizeof line, &text_length);
    printf("validate: %d\n%.*s", result, (int)text_length, (const char *)line);
    free(bytes), free(script), free(out), free(text);
    return result;
}
