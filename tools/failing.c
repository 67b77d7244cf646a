// Loaded below a program, it has one call fail: of the kind that FAIL names (malloc, read, a write to standard output, or error, a
// write to standard error) the one that FAIL_AT counts; where FAIL is nothing, that write to standard output takes no octet. It says
// so on descriptor 9. Where FAIL is pieces none fails, but the first read and the first write are interrupted, and all others move
// one octet. It needs glibc, and no headers.
typedef __SIZE_TYPE__ size_t;
void *__libc_malloc(size_t size);
void *__libc_calloc(size_t count, size_t size);
void *__libc_realloc(void *old, size_t size);
long __read(int descriptor, void *octets, size_t count);
long __write(int descriptor, const void *octets, size_t count);
int *__errno_location(void);
char *getenv(const char *name);

enum { INTERRUPTED = 4, IO_ERROR = 5 };

static char kind(void) {
    const char *word = getenv("FAIL");
    return word ? *word : 0;
}

// Whether a call of this kind is the one to fail.
static int is_it(char of) {
    static long calls;
    const char *digits = getenv("FAIL_AT");
    long at = 0;
    if (kind() != of) return 0;
    while (digits && *digits) at = at * 10 + (*digits++ - '0');
    return ++calls == at && __write(9, ".", 1) == 1;
}

static long error(int number) {
    *__errno_location() = number;
    return -1;
}

void *malloc(size_t size) { return is_it('m') ? (void *)0 : __libc_malloc(size); }
void *calloc(size_t count, size_t size) { return is_it('m') ? (void *)0 : __libc_calloc(count, size); }
void *realloc(void *old, size_t size) { return is_it('m') ? (void *)0 : __libc_realloc(old, size); }

long read(int descriptor, void *octets, size_t count) {
    static int calls;
    if (is_it('r')) return error(IO_ERROR);
    if (kind() != 'p') return __read(descriptor, octets, count);
    return calls++ == 0 ? error(INTERRUPTED) : __read(descriptor, octets, count > 0);
}

long write(int descriptor, const void *octets, size_t count) {
    static int calls;
    if (descriptor == 1 && is_it('w')) return error(IO_ERROR);
    if (descriptor == 1 && is_it('n')) return 0;
    if (descriptor == 2 && is_it('e')) return error(IO_ERROR);
    if (kind() != 'p') return __write(descriptor, octets, count);
    return calls++ == 0 ? error(INTERRUPTED) : __write(descriptor, octets, count > 0);
}
