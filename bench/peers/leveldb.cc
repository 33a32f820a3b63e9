/* LevelDB. */
#include <leveldb/db.h>
#include <leveldb/write_batch.h>

namespace library = leveldb;

#include "log_structured.h"
