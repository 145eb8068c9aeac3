/* Puts records into a file by SQLite's C library, as a store of omlog does: WAL, each commit synced, statements prepared once.
 *     puts FILE receipts|checkpoints PER_TRANSACTION BYTES TRANSACTIONS */
#include <sqlite3.h>
#include <stdio.h>
#include <stdlib.h>
#include <string.h>

static void do_sql(sqlite3 *database, const char *sql)
{
    char *error = NULL;
    if (sqlite3_exec(database, sql, NULL, NULL, &error) != SQLITE_OK) {
        fprintf(stderr, "%s: %s\n", sql, error);
        exit(1);
    }
}

int main(int argc, char **argv)
{
    if (argc != 6)
        return 2;
    int is_receipt = strcmp(argv[2], "receipts") == 0;
    int per_transaction = atoi(argv[3]), length = atoi(argv[4]), transactions = atoi(argv[5]);
    sqlite3 *database;
    if (sqlite3_open(argv[1], &database) != SQLITE_OK)
        return 1;
    do_sql(database, "PRAGMA journal_mode=WAL");
    do_sql(database, "PRAGMA synchronous=FULL");
    do_sql(database, "CREATE TABLE receipts (x INTEGER PRIMARY KEY, body BLOB NOT NULL)");
    do_sql(database, "CREATE TABLE checkpoints (x INTEGER PRIMARY KEY, body BLOB NOT NULL)");
    sqlite3_stmt *insert;
    sqlite3_prepare_v2(database, is_receipt ? "INSERT INTO receipts (x, body) VALUES (?1, ?2)"
                                            : "INSERT INTO checkpoints (x, body) VALUES (?1, ?2)", -1, &insert, NULL);
    char *body = malloc(length);
    memset(body, 'r', length);
    long x = 0;
    for (int i = 0; i < transactions; i++) {
        do_sql(database, "BEGIN");
        for (int k = 0; k < per_transaction; k++) {
            sqlite3_bind_int64(insert, 1, ++x);
            sqlite3_bind_blob(insert, 2, body, length, SQLITE_STATIC);
            if (sqlite3_step(insert) != SQLITE_DONE)
                return 1;
            sqlite3_reset(insert);
        }
        do_sql(database, "COMMIT");
    }
    sqlite3_finalize(insert);
    sqlite3_close(database);
    free(body);
    return 0;
}
