/* SQLite on a volume, with power that goes at random calls of the device: after each mount the database passes its integrity check
 * and has each transaction whose commit returned, and at most one more.
 *
 * And a database on a flash whose pages weaken with each read of their block and are lost after some thousands: blocks that are
 * weak are refreshed between transactions, and nothing is lost.
 *
 *   test_sqlite [LIVES_OF_EACH_MODE] [SEED] [TRANSACTIONS_ON_WEAK_PAGES]
 */
#include "commands.h"
#include "ram_nand.h"
#include "sqlite_vfs.h"

#include <sqlite3.h>
#include <stdio.h>
#include <stdlib.h>
#include <string.h>

static struct flash_fs fs;
static struct ram_nand nand;

static int run(sqlite3 *database, const char *text)
{
    return sqlite3_exec(database, text, NULL, NULL, NULL);
}

/* The number that a statement returns first, or -1. */
static int64_t number(sqlite3 *database, const char *text)
{
    sqlite3_stmt *statement;
    int64_t found = -1;
    if (sqlite3_prepare_v2(database, text, -1, &statement, NULL) != SQLITE_OK)
        return -1;
    if (sqlite3_step(statement) == SQLITE_ROW)
        found = sqlite3_column_int64(statement, 0);
    sqlite3_finalize(statement);
    return found;
}

static bool is_sound(sqlite3 *database)
{
    sqlite3_stmt *statement;
    bool sound = false;
    if (sqlite3_prepare_v2(database, "pragma integrity_check", -1, &statement, NULL) != SQLITE_OK)
        return false;
    if (sqlite3_step(statement) == SQLITE_ROW)
        sound = strcmp((const char *)sqlite3_column_text(statement, 0), "ok") == 0;
    sqlite3_finalize(statement);
    return sound;
}

static sqlite3 *open_database(const char *mode)
{
    sqlite3 *database = NULL;
    char text[200];
    snprintf(text, sizeof text,
             "pragma locking_mode = exclusive; pragma journal_mode = %s; pragma synchronous = extra; pragma cache_size = 20;", mode);
    if (sqlite3_open("/data.db", &database) != SQLITE_OK || run(database, text) != SQLITE_OK) {
        sqlite3_close(database);
        return NULL;
    }
    return database;
}

/* A transaction: a row, a change of older ones, and their count. */
static int transact(sqlite3 *database, int64_t i, struct draw *draw)
{
    char text[600];
    snprintf(text, sizeof text,
             "begin;"
             "insert into rows values (%lld, randomblob(%u));"
             "update rows set data = randomblob(%u) where id = %lld - %u;"
             "delete from rows where id < %lld - 120;"
             "update counts set transactions = %lld;"
             "commit",
             (long long)i, random_below(draw, 3000), random_below(draw, 6000), (long long)i, 1 + random_below(draw, 60), (long long)i, (long long)i);
    return run(database, text);
}

static void live(const char *mode, uint64_t lives, uint64_t seed)
{
    struct draw draw = {seed};
    int64_t committed = 0;
    uint64_t cuts = 0, extra = 0;
    check(ram_nand_make(&nand, 2048, 64, 64) == 0, "memory");
    check(flash_fs_format(&fs, &nand.driver, 2) == 0 && flash_fs_mount(&fs, &nand.driver) == 0, "a volume");
    check(flash_sqlite_register(&fs) == SQLITE_OK, "the file system of SQLite");
    sqlite3 *database = open_database(mode);
    check(database != NULL && run(database, "create table rows (id integer primary key, data blob);"
                                            "create table counts (transactions integer);"
                                            "insert into counts values (0)") == SQLITE_OK,
          "%s: the tables", mode);
    check(sqlite3_close(database) == SQLITE_OK && flash_fs_unmount(&fs) == 0, "%s: the end of the first session", mode);
    for (uint64_t life = 0; life < lives; life++) {
        ram_nand_power_up(&nand);
        check(flash_fs_mount(&fs, &nand.driver) == 0, "%s: a mount", mode);
        nand.fate = (enum ram_nand_fate)random_below(&draw, RAM_NAND_FATES);
        nand.cut_at = nand.calls + 1 + random_below(&draw, 600);
        database = open_database(mode);
        while (database != NULL && !nand.gone) {
            int64_t i = committed + 1;
            int code = transact(database, i, &draw);
            if (code == SQLITE_OK)
                committed = i;
            else
                check(nand.gone, "%s: a transaction returned %d", mode, code);
            if (code != SQLITE_OK || random_below(&draw, 200) == 0)
                break;
        }
        sqlite3_close(database);
        check(nand.misuse == NULL, "the driver was misused: %s", nand.misuse);
        cuts += nand.gone;
        flash_fs_abandon(&fs);
        ram_nand_power_up(&nand);
        check(flash_fs_mount(&fs, &nand.driver) == 0, "%s: a mount after power went", mode);
        database = open_database(mode);
        check(database != NULL && is_sound(database), "%s: life %llu: the database is not sound", mode, (unsigned long long)life);
        int64_t there = number(database, "select transactions from counts");
        check(there == committed || there == committed + 1, "%s: life %llu: %lld transactions, and %lld were committed", mode,
              (unsigned long long)life, (long long)there, (long long)committed);
        check(there == 0 || number(database, "select max(id) from rows") == there, "%s: a transaction is there in part", mode);
        extra += there != committed;
        committed = there;
        check(sqlite3_close(database) == SQLITE_OK && flash_fs_unmount(&fs) == 0, "%s: the end of a session", mode);
    }
    printf("  journal_mode %s: %llu sessions, %llu cut, %lld transactions, of which %llu were there though power went in the commit\n",
           mode, (unsigned long long)lives, (unsigned long long)cuts, (long long)committed, (unsigned long long)extra);
    ram_nand_free(&nand);
}

/* Temporary files that a cut left have the names of the next ones, which are opened all the same. */
static void sort_beside_what_was_left(void)
{
    char name[32];
    sqlite3 *database = NULL;
    check(ram_nand_make(&nand, 2048, 64, 64) == 0 && flash_fs_format(&fs, &nand.driver, 2) == 0, "memory");
    check(flash_fs_mount(&fs, &nand.driver) == 0 && flash_sqlite_register(&fs) == SQLITE_OK, "a volume");
    for (int i = 0; i < 100; i++) {
        snprintf(name, sizeof name, "/temporary-%d", i);
        int fd = flash_fs_open(&fs, name, FLASH_WRONLY | FLASH_CREAT, 0);
        check(flash_fs_write(&fs, fd, "left", 4, 0) == 4 && flash_fs_close(&fs, fd) == 0, "what was left");
    }
    int code = sqlite3_open("/data.db", &database);
    check(code == SQLITE_OK && run(database, "pragma temp_store = file; pragma temp.cache_size = 10; create temp table sorted (id, text);"
                                             "insert into sorted with recursive n(i) as (select 1 union all select i + 1 from n limit 5000)"
                                             " select i, hex(i) from n; create index temp.texts on sorted (text)") == SQLITE_OK,
          "a temporary table");
    check(number(database, "select count(*) from sorted") == 5000, "its rows");
    check(sqlite3_close(database) == SQLITE_OK && flash_fs_unmount(&fs) == 0, "the end");
    ram_nand_free(&nand);
}

static void weaken(uint64_t transactions, uint64_t seed)
{
    struct draw draw = {seed};
    uint64_t refreshed = 0;
    check(ram_nand_make(&nand, 2048, 64, 64) == 0 && flash_fs_format(&fs, &nand.driver, 2) == 0, "memory");
    check(flash_fs_mount(&fs, &nand.driver) == 0 && flash_sqlite_register(&fs) == SQLITE_OK, "a volume");
    sqlite3 *database = open_database("truncate");
    check(database != NULL && run(database, "create table rows (id integer primary key, data blob);"
                                            "create table counts (transactions integer);"
                                            "insert into counts values (0);"
                                            "create table read_only (id integer primary key, text);"
                                            "insert into read_only with recursive n(i) as (select 1 union all select i + 1 from n limit"
                                            " 1000) select i, printf('%0900d', i) from n") == SQLITE_OK,
          "weak pages: the tables");
    nand.weak_after = 300;
    nand.lost_after = 3000;
    for (uint64_t i = 1; i <= transactions; i++) {
        check(transact(database, (int64_t)i, &draw) == SQLITE_OK, "weak pages: transaction %llu", (unsigned long long)i);
        for (int turn = 0; turn < 5; turn++) {
            char text[80];
            snprintf(text, sizeof text, "select text from read_only where id = %u", 1 + random_below(&draw, 1000));
            check(number(database, text) > 0, "weak pages: %s, after transaction %llu", text, (unsigned long long)i);
        }
        uint64_t erases = nand.counts.erases;
        int left = i % 10 == 0 ? flash_fs_refresh(&fs) : 0;
        while (left > 0)
            left = flash_fs_refresh(&fs);
        check(left == 0, "weak pages: a refresh returned %d", left);
        refreshed += nand.counts.erases - erases;
    }
    check(is_sound(database) && number(database, "select transactions from counts") == (int64_t)transactions &&
              number(database, "select count(*) from read_only where text = printf('%0900d', id)") == 1000,
          "weak pages: a row is lost");
    check(refreshed > 0, "weak pages: no block was refreshed");
    check(sqlite3_close(database) == SQLITE_OK && flash_fs_unmount(&fs) == 0 && nand.misuse == NULL, "weak pages: the end");
    printf("  weak pages: %llu transactions, %llu blocks refreshed, of %llu erases\n", (unsigned long long)transactions,
           (unsigned long long)refreshed, (unsigned long long)nand.counts.erases);
    ram_nand_free(&nand);
}

int main(int count, char **words)
{
    sort_beside_what_was_left(); /* first: its names have numbers */
    static const char *const modes[] = {"delete", "truncate", "persist", "wal"};
    uint64_t lives = count > 1 ? strtoull(words[1], NULL, 10) : 100, seed = count > 2 ? strtoull(words[2], NULL, 10) : 1;
    for (size_t i = 0; i < sizeof modes / sizeof *modes; i++)
        live(modes[i], lives, seed * 100 + i);
    weaken(count > 3 ? strtoull(words[3], NULL, 10) : 5000, seed);
    return 0;
}
