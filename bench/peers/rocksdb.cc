/* RocksDB. */
#include <rocksdb/db.h>
#include <rocksdb/write_batch.h>

namespace library = rocksdb;

#include "log_structured.h"
