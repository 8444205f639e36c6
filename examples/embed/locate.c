/* Says where the fault of a module is, in numbers:
 *
 *     locate FILE
 *
 * It prints those that there are: the fault, 0 of a valid module, its section, item and token, the offset in the file, and the function. The
 * status is 0 where the module is valid, 1 where it is not, and 2 where FILE is no module; 3 where the words are others, 4 where FILE
 * can't be read, 5 where memory is wanting. */
#include <stdio.h>
#include <stdlib.h>

#include "wasmkit.h"

static void print(const char *what, uint32_t number) {
    if (number != WASMKIT_NONE) printf(", %s %u", what, (unsigned)number);
}

int main(int argc, char **argv) {
    struct wasmkit_fault fault;
    enum wasmkit_result result;
    uint8_t *bytes;
    FILE *file;
    long length;
    if (argc != 2) return 3;
    if (!(file = fopen(argv[1], "rb")) || fseek(file, 0, SEEK_END) || (length = ftell(file)) < 0) return 4;
    rewind(file);
    if (!(bytes = malloc((size_t)length + 1))) return 5;
    if (fread(bytes, 1, (size_t)length, file) != (size_t)length || fclose(file)) return 4;
    result = wasmkit_locate(bytes, (size_t)length, WASMKIT_CORE, &fault);
    free(bytes);
    if (result > WASMKIT_MALFORMED) return 5;
    printf("fault %u", (unsigned)fault.fault);
    print("section", fault.section), print("item", fault.item), print("token", fault.token);
    print("offset", fault.offset), print("function", fault.function);
    puts("");
    return (int)result;
}
