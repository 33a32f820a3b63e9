/* Writes to standard error, at the end of each phase: the phase, the processor seconds of the calls of its batches (of all threads), and the bytes of
   resident memory. */
#include "phases.h"
#include <stdio.h>
#include <time.h>

static double seconds, started;

static double processor_seconds(void) {
    struct timespec now;
    clock_gettime(CLOCK_PROCESS_CPUTIME_ID, &now);
    return (double)now.tv_sec + (double)now.tv_nsec * 1e-9;
}

static long resident_bytes(void) {
    long all = 0, resident = 0;
    FILE *file = fopen("/proc/self/statm", "r");
    if (file) {
        if (fscanf(file, "%ld %ld", &all, &resident) != 2) {
            resident = 0;
        }
        fclose(file);
    }
    return resident * sysconf(_SC_PAGESIZE);
}

static void start(void) { started = processor_seconds(); }

static void stop(void) { seconds += processor_seconds() - started; }

static void report(const char *phase) {
    char line[80];
    int length = snprintf(line, sizeof line, "%s %.6f %ld\n", phase, seconds, resident_bytes());
    syscall(SYS_write, STDERR_FILENO, line, (size_t)length);
    seconds = 0;
}
