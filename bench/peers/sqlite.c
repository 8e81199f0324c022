/* The transactions of bench/workload over an SQLite database in memory: a table of words, and a log as a table of records.
   sqlite JOBS TRANSACTIONS: does them, and prints the words and the log. */
#include <sqlite3.h>
#include <stdio.h>
#include <stdlib.h>

static sqlite3 *database;

static void check(int status, int wanted) {
  if (status == wanted) return;
  fprintf(stderr, "sqlite: %s\n", sqlite3_errmsg(database));
  exit(1);
}

static void run(const char *text) { check(sqlite3_exec(database, text, NULL, NULL, NULL), SQLITE_OK); }

static sqlite3_stmt *prepared(const char *text) {
  sqlite3_stmt *statement;
  check(sqlite3_prepare_v2(database, text, -1, &statement, NULL), SQLITE_OK);
  return statement;
}

static void done(sqlite3_stmt *statement) {
  check(sqlite3_step(statement), SQLITE_DONE);
  check(sqlite3_reset(statement), SQLITE_OK);
}

static sqlite3_int64 load(sqlite3_stmt *statement, unsigned at) {
  check(sqlite3_bind_int64(statement, 1, at), SQLITE_OK);
  check(sqlite3_step(statement), SQLITE_ROW);
  sqlite3_int64 value = sqlite3_column_int64(statement, 0);
  check(sqlite3_reset(statement), SQLITE_OK);
  return value;
}

static void store(sqlite3_stmt *statement, unsigned at, sqlite3_int64 value) {
  check(sqlite3_bind_int64(statement, 1, value), SQLITE_OK);
  check(sqlite3_bind_int64(statement, 2, at), SQLITE_OK);
  done(statement);
}

static void append(sqlite3_stmt *statement, unsigned job, unsigned number) {
  char record[32];
  snprintf(record, sizeof record, "job %03u, tx %04u", job, number);
  check(sqlite3_bind_text(statement, 1, record, 16, SQLITE_STATIC), SQLITE_OK);
  done(statement);
}

static void print_all(unsigned jobs, sqlite3_stmt *loads) {
  for (unsigned at = 0; at < 2 * jobs; at += 1) printf("word %u %lld\n", at, (long long)load(loads, at));
  sqlite3_stmt *records = prepared("SELECT record FROM log ORDER BY number");
  while (sqlite3_step(records) == SQLITE_ROW) fputs((const char *)sqlite3_column_text(records, 0), stdout);
  putchar('\n');
  sqlite3_finalize(records);
}

int main(int count, char **args) {
  if (count != 3) return 2;
  unsigned jobs = (unsigned)atoi(args[1]);
  unsigned transactions = (unsigned)atoi(args[2]);
  check(sqlite3_open(":memory:", &database), SQLITE_OK);
  run("CREATE TABLE words (at INTEGER PRIMARY KEY, value INTEGER)");
  run("CREATE TABLE log (number INTEGER PRIMARY KEY, record TEXT)");
  sqlite3_stmt *words = prepared("INSERT INTO words (value, at) VALUES (?, ?)");
  for (unsigned at = 0; at < 2 * jobs; at += 1) store(words, at, 0);
  sqlite3_stmt *begins = prepared("BEGIN");
  sqlite3_stmt *loads = prepared("SELECT value FROM words WHERE at = ?");
  sqlite3_stmt *stores = prepared("UPDATE words SET value = ? WHERE at = ?");
  sqlite3_stmt *appends = prepared("INSERT INTO log (record) VALUES (?)");
  sqlite3_stmt *commits = prepared("COMMIT");
  for (unsigned job = 0; job < jobs; job += 1) {
    for (unsigned number = 0; number < transactions; number += 1) {
      done(begins);
      sqlite3_int64 x = load(loads, 2 * job);
      sqlite3_int64 y = load(loads, 2 * job + 1);
      store(stores, 2 * job, y + 1);
      store(stores, 2 * job + 1, x + 1);
      append(appends, job, number);
      done(commits);
    }
  }
  print_all(jobs, loads);
  return 0;
}
