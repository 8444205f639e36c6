/* Preloaded into a program of this repository, it refuses one of the program's allocations, or one and all behind it.
 *
 *   REFUSE_AT=N         the N-th allocation that is counted is refused, from 1 on; without it none is
 *   REFUSE_ONWARD=1     and so is each that is counted behind it
 *   REFUSE_FROM_START=1 all are counted; else those between an allocation of ARM bytes and the next of DISARM bytes,
 *                       two that are themselves served and not counted
 *   REFUSE_LOG=FILE     as the program exits, this file gets the line "armed A counted C refused R": how often the
 *                       count was begun, how many allocations were counted, and how many were refused
 *
 * It is built by any C compiler, with no header: cc -shared -fPIC -nostdlib -o refuse.so refuse.c. The C library that
 * it is loaded above is the GNU one, whose own allocator has the names that begin with __libc_. The programs have one
 * thread. */
typedef __SIZE_TYPE__ size_t;

enum { ARM = 770001, DISARM = 770002 };
enum { NO_MEMORY = 12, WRITE_CREATE_TRUNCATE = 01 | 0100 | 01000 };

extern void *__libc_malloc(size_t), *__libc_calloc(size_t, size_t);
extern void *__libc_realloc(void *, size_t), *__libc_memalign(size_t, size_t);
extern int *__errno_location(void);
extern char *getenv(const char *);
extern long atol(const char *);
extern int open(const char *, int, ...), dprintf(int, const char *, ...), close(int);

static int is_armed, is_onward;
static long armed, counted, refused, refuse_at;

/* Whether an allocation of this size is one to refuse. */
static int is_refused(size_t size) {
    if (size == ARM || size == DISARM) {
        is_armed = size == ARM;
        armed += is_armed;
        return 0;
    }
    if (!is_armed) return 0;
    counted += 1;
    if (!refuse_at || counted < refuse_at || (counted > refuse_at && !is_onward)) return 0;
    refused += 1;
    *__errno_location() = NO_MEMORY;
    return 1;
}

void *malloc(size_t size) {
    return is_refused(size) ? 0 : __libc_malloc(size);
}

void *calloc(size_t count, size_t size) {
    return is_refused(count * size) ? 0 : __libc_calloc(count, size);
}

void *realloc(void *block, size_t size) {
    return is_refused(size) ? 0 : __libc_realloc(block, size);
}

void *aligned_alloc(size_t alignment, size_t size) {
    return is_refused(size) ? 0 : __libc_memalign(alignment, size);
}

int posix_memalign(void **block, size_t alignment, size_t size) {
    void *made = aligned_alloc(alignment, size);
    if (!made) return NO_MEMORY;
    *block = made;
    return 0;
}

__attribute__((constructor)) static void begin(void) {
    const char *at = getenv("REFUSE_AT");
    refuse_at = at ? atol(at) : 0;
    is_onward = getenv("REFUSE_ONWARD") != 0;
    is_armed = getenv("REFUSE_FROM_START") != 0;
    armed = is_armed;
}

__attribute__((destructor)) static void report(void) {
    const char *log = getenv("REFUSE_LOG");
    is_armed = 0;
    int file = log ? open(log, WRITE_CREATE_TRUNCATE, 0600) : -1;
    if (file < 0) return;
    dprintf(file, "armed %ld counted %ld refused %ld\n", armed, counted, refused);
    close(file);
}
