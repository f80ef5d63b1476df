/* The same work as ledger, in C over SQLite: ledger_peer FILE serves `by`, `issue` and `show` of standard input. Each
   issue is a transaction that is on the disk before its line is written. No key is used: M1, M2 and M3 aren't made. */
#include <sqlite3.h>
#include <stdio.h>
#include <stdlib.h>
#include <string.h>

static sqlite3 *base;
static sqlite3_stmt *last, *insert;

static void check(int status, int wanted)
{
    if (status != wanted) {
        fprintf(stderr, "ledger_peer: %s\n", sqlite3_errmsg(base));
        exit(1);
    }
}

static int greatest(const unsigned char *uid, int slot)
{
    int counter;
    check(sqlite3_bind_blob(last, 1, uid, 15, SQLITE_STATIC), SQLITE_OK);
    check(sqlite3_bind_int(last, 2, slot), SQLITE_OK);
    check(sqlite3_step(last), SQLITE_ROW);
    counter = sqlite3_column_int(last, 0);
    check(sqlite3_reset(last), SQLITE_OK);
    return counter;
}

static void add(const unsigned char *uid, int slot, int counter, int auth, char by[3][80])
{
    int i;
    check(sqlite3_bind_blob(insert, 1, uid, 15, SQLITE_STATIC), SQLITE_OK);
    check(sqlite3_bind_int(insert, 2, slot), SQLITE_OK);
    check(sqlite3_bind_int(insert, 3, counter), SQLITE_OK);
    check(sqlite3_bind_text(insert, 4, "issued", -1, SQLITE_STATIC), SQLITE_OK);
    check(sqlite3_bind_blob(insert, 5, uid, 3, SQLITE_STATIC), SQLITE_OK);
    check(sqlite3_bind_int(insert, 6, auth), SQLITE_OK);
    for (i = 0; i < 3; i++)
        check(sqlite3_bind_text(insert, 7 + i, by[i], -1, SQLITE_STATIC), SQLITE_OK);
    check(sqlite3_step(insert), SQLITE_DONE);
    check(sqlite3_reset(insert), SQLITE_OK);
}

int main(int count, char **words)
{
    char text[1024], hex[31], by[3][80] = {"", "", ""};
    unsigned char uid[15];
    unsigned int digit;
    int slot, auth, i, number = 0;
    if (count != 2)
        return 2;
    check(sqlite3_open(words[1], &base), SQLITE_OK);
    check(sqlite3_exec(base, "PRAGMA locking_mode=EXCLUSIVE; PRAGMA journal_mode=WAL; PRAGMA synchronous=FULL;"
        "CREATE TABLE IF NOT EXISTS entry (uid BLOB NOT NULL, slot INTEGER NOT NULL, counter INTEGER NOT NULL,"
        "what TEXT NOT NULL, kcv BLOB NOT NULL, auth INTEGER NOT NULL, station TEXT NOT NULL,"
        "operator TEXT NOT NULL, time TEXT NOT NULL, id INTEGER PRIMARY KEY, UNIQUE (uid, slot, counter, id)) STRICT",
        NULL, NULL, NULL), SQLITE_OK);
    check(sqlite3_prepare_v2(base, "SELECT max(counter) FROM entry WHERE uid = ?1 AND slot = ?2", -1, &last, NULL), SQLITE_OK);
    check(sqlite3_prepare_v2(base, "INSERT INTO entry (uid, slot, counter, what, kcv, auth, station, operator, time)"
        " VALUES (?1, ?2, ?3, ?4, ?5, ?6, ?7, ?8, ?9)", -1, &insert, NULL), SQLITE_OK);
    while (fgets(text, sizeof text, stdin)) {
        number++;
        if (sscanf(text, "by %79s %79s %79s", by[0], by[1], by[2]) == 3)
            continue;
        if (sscanf(text, "issue %30s %d %d", hex, &slot, &auth) != 3 && sscanf(text, "show %30s %d", hex, &slot) != 2)
            return 4;
        for (i = 0; i < 15; i++) {
            sscanf(hex + 2 * i, "%2x", &digit);
            uid[i] = (unsigned char)digit;
        }
        i = greatest(uid, slot);
        if (text[0] == 'i')
            add(uid, slot, ++i, auth, by);
        printf(i ? "%d issued %d\n" : "%d none\n", number, i);
        fflush(stdout);
    }
    sqlite3_finalize(last);
    sqlite3_finalize(insert);
    return sqlite3_close(base) != SQLITE_OK;
}
