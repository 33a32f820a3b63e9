/* Under valgrind, callgrind counts only the calls of batches, and writes its counts at the end of each phase. */
#include "phases.h"
#include <valgrind/callgrind.h>

static void start(void) { CALLGRIND_TOGGLE_COLLECT; }

static void stop(void) { CALLGRIND_TOGGLE_COLLECT; }

static void report(const char *phase) { CALLGRIND_DUMP_STATS_AT(phase); }
