/* Judges each file of a folder as a module, in the order of their names, with one validator:
 *
 *     judge FOLDER
 *
 * It prints a line for each, the name and the text of the verdict. What is no regular file, and what has a dot in front, is passed over.
 * The status is 0 where all are valid and else 1; 3 where the words are others, 4 where a file can't be read, 5 where memory is wanting. */
#define _POSIX_C_SOURCE 200809L
#include <dirent.h>
#include <stdio.h>
#include <stdlib.h>
#include <sys/stat.h>

#include "wasmkit.h"

/* The bytes of a file, whose memory grows with the largest. */
static uint8_t *load(const char *path, uint8_t *bytes, size_t *capacity, size_t *length) {
    FILE *file = fopen(path, "rb");
    long end;
    if (!file || fseek(file, 0, SEEK_END) || (end = ftell(file)) < 0) exit(4);
    rewind(file);
    *length = (size_t)end;
    if (*length > *capacity && !(bytes = realloc(bytes, *capacity = *length))) exit(5);
    if (fread(bytes, 1, *length, file) != *length || fclose(file)) exit(4);
    return bytes;
}

int main(int argc, char **argv) {
    struct wasmkit_validator *validator;
    struct dirent **files;
    size_t capacity = 4096, length, text_length;
    uint8_t *bytes = malloc(capacity), text[256];
    int status = 0, count, i;
    if (argc != 2) return 3;
    if (!bytes || wasmkit_validator_new(&validator) != WASMKIT_OK) return 5;
    if ((count = scandir(argv[1], &files, NULL, alphasort)) < 0) return 4;
    for (i = 0; i < count; i++) {
        const char *name = files[i]->d_name;
        if (name[0] != '.') {
            char path[4096];
            enum wasmkit_result result;
            struct stat about;
            if (snprintf(path, sizeof path, "%s/%s", argv[1], name) >= (int)sizeof path || stat(path, &about)) return 4;
            if (!S_ISREG(about.st_mode)) continue;
            bytes = load(path, bytes, &capacity, &length);
            result = wasmkit_validator_judge(validator, bytes, length, WASMKIT_CORE, text, sizeof text, &text_length);
            if (result != WASMKIT_OK && result != WASMKIT_INVALID && result != WASMKIT_MALFORMED) return 5;
            printf("%s: %.*s", name, (int)text_length, (const char *)text);
            if (result != WASMKIT_OK) status = 1;
        }
    }
    wasmkit_validator_free(validator);
    for (i = 0; i < count; i++) free(files[i]);
    free(files), free(bytes);
    return status;
}
