/* Times deleting one row in a transaction of its own, in a SQLite database in memory with a table of 1,000 rows, and prints the
   nanoseconds for one transaction. */
#include <sqlite3.h>
#include <stdint.h>
#include <stdio.h>
#include <stdlib.h>
#include <time.h>

/* Rows of the table, transactions timed on one table, and tables. The table never falls below 800 rows. */
enum { ROWS = 1000, DELETIONS = 200, TABLES = 50, RECORD = 87 };

static sqlite3 *base;

static void check(int code, int expected)
{
    if (code != expected) {
        fprintf(stderr, "sqlite: %s\n", sqlite3_errmsg(base));
        exit(1);
    }
}

static void run(const char *text) { check(sqlite3_exec(base, text, NULL, NULL, NULL), SQLITE_OK); }

static sqlite3_stmt *prepared(const char *text)
{
    sqlite3_stmt *statement;
    check(sqlite3_prepare_v2(base, text, -1, &statement, NULL), SQLITE_OK);
    return statement;
}

static void step(sqlite3_stmt *statement)
{
    check(sqlite3_step(statement), SQLITE_DONE);
    check(sqlite3_reset(statement), SQLITE_OK);
}

static uint64_t now(void)
{
    struct timespec t;
    clock_gettime(CLOCK_MONOTONIC, &t);
    return (uint64_t)t.tv_sec * 1000000000 + (uint64_t)t.tv_nsec;
}

/* A row is a number and as many bytes as the longest record has. */
static void fill(sqlite3_stmt *insert)
{
    static const uint8_t record[RECORD];
    run("DELETE FROM ticket");
    run("BEGIN");
    for (int i = 0; i < ROWS; i++) {
        check(sqlite3_bind_int(insert, 1, i), SQLITE_OK);
        check(sqlite3_bind_blob(insert, 2, record, RECORD, SQLITE_STATIC), SQLITE_OK);
        step(insert);
    }
    run("COMMIT");
}

int main(void)
{
    check(sqlite3_open(":memory:", &base), SQLITE_OK);
    run("CREATE TABLE ticket (number INTEGER PRIMARY KEY, record BLOB)");
    sqlite3_stmt *insert = prepared("INSERT INTO ticket VALUES (?, ?)");
    sqlite3_stmt *begin = prepared("BEGIN");
    sqlite3_stmt *erase = prepared("DELETE FROM ticket WHERE number = ?");
    sqlite3_stmt *commit = prepared("COMMIT");
    uint64_t spent = 0;
    for (int t = 0; t < TABLES; t++) {
        fill(insert);
        for (int i = 0; i < DELETIONS; i++) {
            /* 371 and 1,000 have no common factor: another row each time */
            int row = i * 371 % ROWS;
            uint64_t from = now();
            step(begin);
            check(sqlite3_bind_int(erase, 1, row), SQLITE_OK);
            step(erase);
            step(commit);
            spent += now() - from;
            check(sqlite3_changes(base), 1);
        }
    }
    printf("SQLite, one row deleted in a transaction: %llu\n", (unsigned long long)(spent / (TABLES * DELETIONS)));
    sqlite3_finalize(insert);
    sqlite3_finalize(begin);
    sqlite3_finalize(erase);
    sqlite3_finalize(commit);
    sqlite3_close(base);
    return 0;
}
