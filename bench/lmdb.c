// What commits of LMDB take, for bench/commits.sh: the input of bench/commits.rattle, read the same way. A key is a name with its labels
// turned round, so that names lie in the order in which a zone has them. With the word `held` a transaction that reads stays open.
// Usage: lmdb FOLDER [held] <INPUT
#include <lmdb.h>
#include <stdio.h>
#include <stdlib.h>
#include <string.h>
#include <time.h>

static const unsigned char record[16] = {0, 1, 0, 1, 0, 0, 1, 44, 0, 1, 0, 4, 192, 0, 2, 1};
static const unsigned char other[16] = {0, 1, 0, 1, 0, 0, 1, 44, 0, 1, 0, 4, 192, 0, 2, 2};

static void must(int code) {
    if (code != 0) {
        fprintf(stderr, "%s\n", mdb_strerror(code));
        exit(1);
    }
}

// The labels of a name from the last on, each with a point behind it.
static size_t key_of(const char *name, char *key) {
    size_t end = strlen(name), len = 0;
    while (end > 0) {
        size_t start = end - 1;
        while (start > 0 && name[start - 1] != '.') {
            start -= 1;
        }
        memcpy(key + len, name + start, end - start);
        len += end - start;
        end = start;
    }
    return len;
}

static void change(MDB_txn *txn, MDB_dbi db, const char *word) {
    char octets[256];
    MDB_val key = {key_of(word + 1, octets), octets};
    MDB_val value = {16, (void *)(*word == '=' ? other : record)};
    if (*word == '-') {
        must(mdb_del(txn, db, &key, NULL));
    } else {
        must(mdb_put(txn, db, &key, &value, *word == '+' ? MDB_NOOVERWRITE : 0));
    }
}

// All changes of a line, committed. A function of its own, so that its instructions can be counted alone.
static __attribute__((noinline)) void transaction(MDB_env *env, MDB_dbi db, char *line) {
    MDB_txn *txn;
    must(mdb_txn_begin(env, NULL, 0, &txn));
    strtok(line, " ");
    for (char *word = strtok(NULL, " "); word != NULL; word = strtok(NULL, " ")) {
        change(txn, db, word);
    }
    must(mdb_txn_commit(txn));
}

static unsigned long now(void) {
    struct timespec at;
    clock_gettime(CLOCK_MONOTONIC, &at);
    return at.tv_sec * 1000000000ul + at.tv_nsec;
}

static int rising(const void *a, const void *b) {
    unsigned long x = *(const unsigned long *)a, y = *(const unsigned long *)b;
    return x < y ? -1 : x > y;
}

int main(int argc, char **argv) {
    static char line[1 << 26];
    static unsigned long took[1 << 20];
    size_t count = 0, late = 0;
    double sum = 0;
    int opened = 0;
    MDB_env *env;
    MDB_txn *txn, *reader;
    MDB_dbi db;
    must(mdb_env_create(&env));
    must(mdb_env_set_mapsize(env, 1ul << 30));
    must(mdb_env_open(env, argv[1], MDB_NOSYNC | MDB_WRITEMAP | MDB_NOTLS, 0600));
    must(mdb_txn_begin(env, NULL, 0, &txn));
    must(mdb_dbi_open(txn, NULL, 0, &db));
    while (fgets(line, sizeof line, stdin) != NULL) {
        line[strcspn(line, "\n")] = 0;
        if (line[0] != '>') {
            char word[260];
            snprintf(word, sizeof word, "+%.255s", line);
            change(txn, db, word);
            continue;
        }
        if (!opened) {
            must(mdb_txn_commit(txn));
            if (argc > 2 && strcmp(argv[2], "held") == 0) {
                must(mdb_txn_begin(env, NULL, MDB_RDONLY, &reader));
            }
            opened = 1;
        }
        unsigned long begun = now();
        transaction(env, db, line);
        took[count] = now() - begun;
        sum += took[count];
        late += took[count] > 1000000;
        count += 1;
    }
    qsort(took, count, sizeof *took, rising);
    printf("%lu %lu %lu %zu %zu\n", took[count / 2], (unsigned long)(sum / count), took[count - 1], late, count);
    return 0;
}
