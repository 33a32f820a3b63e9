/* LMDB: each batch is one transaction, whose commit syncs the file (no flag is set). With the last argument `sorted`, each batch is put in key order,
 * which is fastest in LMDB; the time includes the sort. */
#include "pairs.h"

#include <lmdb.h>

static const size_t ROOM = (size_t)4 << 30; /* bytes of the map: more than are ever used */

static void must(int code, const char *what) {
    if (code != 0) fail(what, mdb_strerror(code));
}

static MDB_val val(struct slice slice) {
    MDB_val val = {slice.length, slice.bytes};
    return val;
}

static int by_key(const void *one, const void *two) {
    const struct slice *a = &((const struct pair *)one)->key, *b = &((const struct pair *)two)->key;
    int order = memcmp(a->bytes, b->bytes, a->length < b->length ? a->length : b->length);
    return order != 0 ? order : (a->length > b->length) - (a->length < b->length);
}

static MDB_env *opened(const char *store, unsigned flags) {
    MDB_env *env;
    must(mdb_env_create(&env), "mdb_env_create");
    must(mdb_env_set_mapsize(env, ROOM), "mdb_env_set_mapsize");
    must(mdb_env_open(env, store, flags, 0644), "mdb_env_open");
    return env;
}

static void put_batch(MDB_env *env, const struct pair *batch, size_t count) {
    MDB_txn *txn;
    MDB_dbi table;
    must(mdb_txn_begin(env, NULL, 0, &txn), "mdb_txn_begin");
    must(mdb_dbi_open(txn, NULL, 0, &table), "mdb_dbi_open");
    for (size_t at = 0; at < count; at++) {
        MDB_val key = val(batch[at].key), value = val(batch[at].value);
        must(mdb_put(txn, table, &key, &value, 0), "mdb_put");
    }
    must(mdb_txn_commit(txn), "mdb_txn_commit");
}

static void load(const char *store, struct pairs pairs, size_t batch, int sorted) {
    MDB_env *env = opened(store, 0);
    say("ready");
    for (size_t at = 0; at < pairs.count; at += batch) {
        size_t count = pairs.count - at < batch ? pairs.count - at : batch;
        if (sorted) qsort(pairs.items + at, count, sizeof(struct pair), by_key);
        put_batch(env, pairs.items + at, count);
    }
    say_done_and_wait();
}

static void get(const char *store, char *word) {
    MDB_env *env = opened(store, MDB_RDONLY);
    MDB_txn *txn;
    MDB_dbi table;
    MDB_val key = {strlen(word), word}, value;
    must(mdb_txn_begin(env, NULL, MDB_RDONLY, &txn), "mdb_txn_begin");
    must(mdb_dbi_open(txn, NULL, 0, &table), "mdb_dbi_open");
    must(mdb_get(txn, table, &key, &value), "mdb_get");
    say_value((const char *)value.mv_data, value.mv_size);
    mdb_txn_abort(txn);
    mdb_env_close(env);
}

int main(int count, char **words) {
    if (count >= 5 && strcmp(words[1], "load") == 0) {
        load(words[2], read_pairs(words[3]), strtoul(words[4], NULL, 10), count > 5 && strcmp(words[5], "sorted") == 0);
    } else if (count == 4 && strcmp(words[1], "get") == 0) {
        get(words[2], words[3]);
    } else {
        fail(words[0], "load STORE PAIRS BATCH [sorted], or get STORE KEY");
    }
    return 0;
}
