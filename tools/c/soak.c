/* This library is loaded in front of the C library, between the program and the file of its store. At the call number SOAK_AT, or the allocation of
   that number, it causes the failure SOAK_FAILURE, which is a letter:

   k, h, K  kills the program before the call, after half of a write, after the call
   f, F, s  fails the call; fails it after half of a write; as F, and each later write and sync of the file too
   c, i     cuts a read or a write short at its half; interrupts the call, which does nothing (except statx, which no signal interrupts)
   m, a     refuses the allocation; kills the program there

   It counts the reads of the input, the writes to the output, and the calls on the file SOAK_FILE except its seeks. In SOAK_RECORD it records the calls
   that change the file: W, the place and the length in eight bytes each, and the bytes, before a write; T and the length, after it was set; S after a sync;
   D at the failure. `tools/soak` builds and uses it. It includes nothing, since the kit has a compiler and no headers. */
typedef __SIZE_TYPE__ size_t;

void *__libc_malloc(size_t);
void *__libc_realloc(void *, size_t);
int *__errno_location(void);
char *getenv(const char *);
long atol(const char *);
int strcmp(const char *, const char *);
long syscall(long, ...);

enum { READ = 0, WRITE = 1, OPEN = 2, LSEEK = 8, GETPID = 39, KILL = 62, FLOCK = 73, FDATASYNC = 75, FTRUNCATE = 77, STATX = 332 };
enum { EINTR = 4, EIO = 5, ENOMEM = 12 };
enum { INPUT = 0, OUTPUT = 1, SIGKILL = 9, O_NEW = 01 | 0100 | 01000 | 02000000, SEEK_CUR = 1 };

static const char *path;
static char failure;
static long at, calls, allocations;
static int record = -1, file = -1;

static void note(const void *bytes, size_t size) { syscall(WRITE, record, bytes, size); }

__attribute__((constructor)) static void start(void) {
    path = getenv("SOAK_FILE");
    failure = *getenv("SOAK_FAILURE");
    at = atol(getenv("SOAK_AT"));
    record = syscall(OPEN, getenv("SOAK_RECORD"), O_NEW, 0666);
    __atomic_store_n(&allocations, 0, __ATOMIC_SEQ_CST);
}

static void die(void) { syscall(KILL, syscall(GETPID), SIGKILL); }

static int fail(int error) {
    *__errno_location() = error;
    return -1;
}

/* Returns the failure if this call has to make it, or else 0. It does not return if the failure kills before the call, or after half of a call that has no half. */
static char failure_now(int has_half, int is_stopped) {
    long call = __atomic_add_fetch(&calls, 1, __ATOMIC_SEQ_CST);
    if (failure == 'm' || failure == 'a' || (failure == 's' ? call < at || !is_stopped : call != at)) {
        return 0;
    }
    note("D", 1);
    if (failure == 'k' || (failure == 'h' && !has_half)) {
        die();
    }
    return failure;
}

static int is_failing(char now) { return now == 'f' || now == 'F' || now == 's' || now == 'i'; }

static int error_of(char now) { return now == 'i' ? EINTR : EIO; }

/* Makes a call that can't be done by half. If it succeeds, records `noted`, before the program may be killed. */
static long whole(int is_stopped, const void *noted, size_t size, long number, long a, long b, long c, long d, long e) {
    char now = failure_now(0, is_stopped);
    if (is_failing(now) && !(now == 'i' && number == STATX)) {
        return fail(error_of(now));
    }
    long done = syscall(number, a, b, c, d, e);
    if (done == 0) {
        note(noted, size);
    }
    if (now == 'K') {
        die();
    }
    return done;
}

int open(const char *name, int flags, int mode) {
    if (strcmp(name, path) != 0) {
        return syscall(OPEN, name, flags, mode);
    }
    return file = whole(0, "", 0, OPEN, (long)name, flags, mode, 0, 0);
}

int flock(int fd, int how) { return whole(0, "", 0, FLOCK, fd, how, 0, 0, 0); }

int statx(int fd, const char *name, int flags, unsigned mask, void *buf) { return whole(0, "", 0, STATX, fd, (long)name, flags, mask, (long)buf); }

int fdatasync(int fd) { return whole(1, "S", 1, FDATASYNC, fd, 0, 0, 0, 0); }

int ftruncate(int fd, long length) {
    char noted[9] = "T";
    __builtin_memcpy(noted + 1, &length, 8);
    return whole(1, noted, 9, FTRUNCATE, fd, length, 0, 0, 0);
}

long read(int fd, void *buf, size_t size) {
    char now = fd == INPUT || fd == file ? failure_now(0, 0) : 0;
    if (is_failing(now)) {
        return fail(error_of(now));
    }
    long done = syscall(READ, fd, buf, now == 'c' ? (size + 1) / 2 : size);
    if (now == 'K') {
        die();
    }
    return done;
}

long write(int fd, const void *bytes, size_t size) {
    if (fd == file) {
        long place[2] = {syscall(LSEEK, fd, 0, SEEK_CUR), size};
        note("W", 1);
        note(place, sizeof place);
        note(bytes, size);
    }
    char now = fd == OUTPUT || fd == file ? failure_now(1, fd == file) : 0;
    if (now == 'f' || now == 'i') {
        return fail(error_of(now));
    }
    long done = syscall(WRITE, fd, bytes, now && now != 'K' ? (size + 1) / 2 : size);
    if (now == 'K' || now == 'h') {
        die();
    }
    return is_failing(now) ? fail(error_of(now)) : done;
}

static int is_refused(void) {
    if (__atomic_add_fetch(&allocations, 1, __ATOMIC_SEQ_CST) != at || (failure != 'm' && failure != 'a')) {
        return 0;
    }
    note("D", 1);
    if (failure == 'a') {
        die();
    }
    return fail(ENOMEM);
}

void *malloc(size_t size) { return is_refused() ? 0 : __libc_malloc(size); }

void *realloc(void *old, size_t size) { return is_refused() ? 0 : __libc_realloc(old, size); }
