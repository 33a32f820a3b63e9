/* What `leveldb.cc` and `rocksdb.cc` share. Their libraries have the same calls, in the namespace that each of them names `library`. All settings are
 * the library's defaults, and each batch is one `WriteBatch`, written with `sync`. */
#ifndef LOG_STRUCTURED_H
#define LOG_STRUCTURED_H

#include "pairs.h"

#include <string>

static void must(const library::Status &status, const char *what) {
    if (!status.ok()) fail(what, status.ToString().c_str());
}

static library::DB *opened(const char *store, bool is_new) {
    library::Options options;
    options.create_if_missing = is_new;
    library::DB *db;
    must(library::DB::Open(options, store, &db), "DB::Open");
    return db;
}

static library::Slice slice(struct slice bytes) {
    return library::Slice(bytes.bytes, bytes.length);
}

static void load(const char *store, struct pairs pairs, size_t batch) {
    library::DB *db = opened(store, true);
    library::WriteOptions durable;
    durable.sync = true;
    say("ready");
    for (size_t at = 0; at < pairs.count;) {
        library::WriteBatch writes;
        for (size_t end = at + batch; at < end && at < pairs.count; at++) {
            writes.Put(slice(pairs.items[at].key), slice(pairs.items[at].value));
        }
        must(db->Write(durable, &writes), "DB::Write");
    }
    say_done_and_wait();
}

static void get(const char *store, const char *key) {
    library::DB *db = opened(store, false);
    std::string value;
    must(db->Get(library::ReadOptions(), key, &value), "DB::Get");
    say_value(value.data(), value.size());
    delete db;
}

int main(int count, char **words) {
    if (count == 5 && strcmp(words[1], "load") == 0) {
        load(words[2], read_pairs(words[3]), strtoul(words[4], NULL, 10));
    } else if (count == 4 && strcmp(words[1], "get") == 0) {
        get(words[2], words[3]);
    } else {
        fail(words[0], "load STORE PAIRS BATCH, or get STORE KEY");
    }
    return 0;
}

#endif
