/* Fails calls of one kind, FAIL_CALL: FAIL_COUNT of them from the number FAIL_FROM on, counted from 0, with the error FAIL_ERROR. The kinds are

   input, output, error         a read of standard input, a write to standard output, to standard error
   open                         opening the file FAIL_FILE for writing; those that follow are calls on this file, also by a duplicated descriptor:
   hold, share, length          its exclusive lock, its shared lock, asking for its length and identity
   cut, read, write, sync       setting its length, a read, a write, a sync
   rename                       giving it another name
   thread                       starting a thread: this ends the program with FAIL_ERROR as its status

   If FAIL_CUT is set, each read and each write of the file or of a stream transfers one byte. If FAIL_WAIT is set, each read and each write of the
   file takes FAIL_WAIT milliseconds more. If FAIL_ENDS is set, the program ends before the first of the calls, as if it were killed. This library is loaded in front of the C library; `tools/failures.py` uses it. It includes nothing, since
   the kit has a compiler and no headers. */
typedef __SIZE_TYPE__ size_t;

int *__errno_location(void);
char *getenv(const char *);
long atol(const char *);
int strcmp(const char *, const char *);
long syscall(long, ...);
void *dlsym(void *, const char *);

enum { READ = 0, WRITE = 1, OPEN = 2, CLOSE = 3, NANOSLEEP = 35, FCNTL = 72, FLOCK = 73, FSYNC = 74, FDATASYNC = 75, FTRUNCATE = 77, RENAME = 82, EXIT_GROUP = 231, STATX = 332 };
enum { O_WRITES = 03, LOCK_EX = 2, F_DUPFD_CLOEXEC = 1030 };

static const char *kind, *path;
static long first, count, error, pause, made;
static int cuts, ends, file = -1, duplicate = -1;

__attribute__((constructor)) static void start(void) {
    path = getenv("FAIL_FILE");
    kind = getenv("FAIL_CALL");
    first = atol(getenv("FAIL_FROM"));
    count = atol(getenv("FAIL_COUNT"));
    error = atol(getenv("FAIL_ERROR"));
    cuts = getenv("FAIL_CUT") != 0;
    ends = getenv("FAIL_ENDS") != 0;
    pause = getenv("FAIL_WAIT") ? atol(getenv("FAIL_WAIT")) : 0;
}

/* Counts a call of this kind, and returns whether it fails. */
static int fails(const char *call) {
    if (strcmp(call, kind) != 0) {
        return 0;
    }
    long number = __atomic_fetch_add(&made, 1, __ATOMIC_SEQ_CST);
    if (number < first || number - first >= count) {
        return 0;
    }
    if (ends) {
        syscall(EXIT_GROUP, error);
    }
    *__errno_location() = error;
    return 1;
}

static int is_file(int fd) { return fd >= 0 && (fd == file || fd == duplicate); }

static void delay(int fd) {
    long duration[2] = {pause / 1000, pause % 1000 * 1000000}; /* seconds and nanoseconds */
    if (is_file(fd) && pause) {
        syscall(NANOSLEEP, duration, 0);
    }
}

static size_t taken(size_t size) { return cuts && size > 1 ? 1 : size; }

int open(const char *name, int flags, int mode) {
    int is_path = strcmp(name, path) == 0;
    if (is_path && flags & O_WRITES && fails("open")) {
        return -1;
    }
    int opened = syscall(OPEN, name, flags, mode);
    file = is_path ? opened : file;
    return opened;
}

int fcntl(int fd, int what, long value) {
    int answer = syscall(FCNTL, fd, what, value);
    duplicate = is_file(fd) && what == F_DUPFD_CLOEXEC ? answer : duplicate;
    return answer;
}

int close(int fd) {
    duplicate = fd == duplicate ? -1 : duplicate;
    file = fd == file ? -1 : file;
    return syscall(CLOSE, fd);
}

int flock(int fd, int how) { return is_file(fd) && fails(how & LOCK_EX ? "hold" : "share") ? -1 : syscall(FLOCK, fd, how); }

int statx(int fd, const char *name, int flags, unsigned mask, void *buf) {
    return is_file(fd) && fails("length") ? -1 : syscall(STATX, fd, name, flags, mask, buf);
}

int rename(const char *from, const char *to) { return strcmp(from, path) == 0 && fails("rename") ? -1 : syscall(RENAME, from, to); }

int ftruncate(int fd, long length) { return is_file(fd) && fails("cut") ? -1 : syscall(FTRUNCATE, fd, length); }

int fsync(int fd) { return is_file(fd) && fails("sync") ? -1 : syscall(FSYNC, fd); }

int fdatasync(int fd) { return is_file(fd) && fails("sync") ? -1 : syscall(FDATASYNC, fd); }

long read(int fd, void *buf, size_t size) {
    if (fd != 0 && !is_file(fd)) {
        return syscall(READ, fd, buf, size);
    }
    delay(fd);
    return fails(fd ? "read" : "input") ? -1 : syscall(READ, fd, buf, taken(size));
}

long write(int fd, const void *bytes, size_t size) {
    if (fd != 1 && fd != 2 && !is_file(fd)) {
        return syscall(WRITE, fd, bytes, size);
    }
    const char *call = fd == 1 ? "output" : fd == 2 ? "error" : "write";
    delay(fd);
    return fails(call) ? -1 : syscall(WRITE, fd, bytes, taken(size));
}

int pthread_create(void *thread, const void *how, void *(*run)(void *), void *given) {
    if (fails("thread")) {
        syscall(EXIT_GROUP, error);
    }
    int (*create)(void *, const void *, void *(*)(void *), void *) = dlsym((void *)-1, "pthread_create"); /* the next one, the C library's */
    return create(thread, how, run, given);
}
