/* Refuses the call number REFUSE of malloc, calloc, realloc and the like, counted from 1 over all threads, and writes `<refused>` to standard error.
   It is loaded in front of the C library; `tools/failures.py` uses it. It includes nothing, since the kit has a compiler and no headers. */
typedef __SIZE_TYPE__ size_t;

void *__libc_malloc(size_t);
void *__libc_calloc(size_t, size_t);
void *__libc_realloc(void *, size_t);
void *__libc_memalign(size_t, size_t);
int *__errno_location(void);
char *getenv(const char *);
long atol(const char *);
long write(int, const void *, size_t);

static const int NO_MEMORY = 12; /* ENOMEM */
static const char SAID[] = "<refused>";
static long calls;
static long refused;

__attribute__((constructor)) static void start(void) {
    const char *number = getenv("REFUSE");
    refused = number ? atol(number) : 0;
    __atomic_store_n(&calls, 0, __ATOMIC_SEQ_CST);
}

static int is_refused(void) {
    if (__atomic_add_fetch(&calls, 1, __ATOMIC_SEQ_CST) != refused) {
        return 0;
    }
    write(2, SAID, sizeof SAID - 1);
    *__errno_location() = NO_MEMORY;
    return 1;
}

void *malloc(size_t size) { return is_refused() ? 0 : __libc_malloc(size); }

void *calloc(size_t count, size_t size) { return is_refused() ? 0 : __libc_calloc(count, size); }

void *realloc(void *old, size_t size) { return is_refused() ? 0 : __libc_realloc(old, size); }

void *aligned_alloc(size_t align, size_t size) { return is_refused() ? 0 : __libc_memalign(align, size); }

int posix_memalign(void **made, size_t align, size_t size) {
    *made = is_refused() ? 0 : __libc_memalign(align, size);
    return *made ? 0 : NO_MEMORY;
}
