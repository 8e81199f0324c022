/* SQLite: accounts and log are tables. In memory all threads share one database by its shared cache; on a file each has a connection. No sync, no WAL. */
#include "bank.h"
#include <sqlite3.h>

static const char *name;
static _Thread_local sqlite3 *db;
static _Thread_local sqlite3_stmt *begin, *commit, *rollback, *balance, *add, *line;
static sqlite3 *keeper;

static sqlite3 *connect(void) {
  sqlite3 *made;
  if (sqlite3_open_v2(name, &made, SQLITE_OPEN_READWRITE | SQLITE_OPEN_CREATE | SQLITE_OPEN_URI | SQLITE_OPEN_FULLMUTEX, NULL)) bank_fail("no database");
  sqlite3_busy_timeout(made, 60000);
  sqlite3_exec(made, "pragma synchronous=off; pragma journal_mode=memory;", NULL, NULL, NULL);
  return made;
}

static sqlite3_stmt *prepared(const char *text) {
  sqlite3_stmt *made;
  if (sqlite3_prepare_v2(db, text, -1, &made, NULL)) bank_fail(sqlite3_errmsg(db));
  return made;
}

void bank_open(const char *file) {
  name = file ? file : "file:bank?mode=memory&cache=shared";
  if (file) remove(file);
  keeper = connect();
  if (sqlite3_exec(keeper, "create table account (id integer primary key, balance integer); create table log (line text);", NULL, NULL, NULL)) bank_fail(sqlite3_errmsg(keeper));
  char text[128];
  for (int i = 0; i < ACCOUNTS; i++) {
    snprintf(text, sizeof text, "insert into account values (%d, %d)", i, OPENING);
    if (sqlite3_exec(keeper, text, NULL, NULL, NULL)) bank_fail(sqlite3_errmsg(keeper));
  }
}

static int step(sqlite3_stmt *s) {
  int code = sqlite3_step(s);
  sqlite3_reset(s);
  return code;
}

static void ready(void) {
  if (db) return;
  db = connect();
  begin = prepared("begin immediate");
  commit = prepared("commit");
  rollback = prepared("rollback");
  balance = prepared("select balance from account where id = ?");
  add = prepared("update account set balance = balance + ? where id = ?");
  line = prepared("insert into log values (?)");
}

static void change(uint32_t account, int64_t amount) {
  sqlite3_bind_int64(add, 1, amount);
  sqlite3_bind_int(add, 2, (int)account);
  if (step(add) != SQLITE_DONE) bank_fail(sqlite3_errmsg(db));
}

int bank_transfer(const struct transfer *t) {
  ready();
  int code;
  while ((code = step(begin)) != SQLITE_DONE)
    if ((code & 255) != SQLITE_BUSY && (code & 255) != SQLITE_LOCKED) bank_fail(sqlite3_errmsg(db));
  sqlite3_bind_text(line, 1, t->line, (int)t->len, SQLITE_STATIC);
  if (step(line) != SQLITE_DONE) bank_fail(sqlite3_errmsg(db));
  sqlite3_bind_int(balance, 1, (int)t->from);
  if (sqlite3_step(balance) != SQLITE_ROW) bank_fail(sqlite3_errmsg(db));
  int done = (uint64_t)sqlite3_column_int64(balance, 0) >= t->amount;
  sqlite3_reset(balance);
  if (done) {
    change(t->from, -(int64_t)t->amount);
    change(t->to, (int64_t)t->amount);
  }
  if (step(done ? commit : rollback) != SQLITE_DONE) bank_fail(sqlite3_errmsg(db));
  return done;
}

static uint64_t number(const char *text) {
  db = keeper;
  sqlite3_stmt *s = prepared(text);
  if (sqlite3_step(s) != SQLITE_ROW) bank_fail(sqlite3_errmsg(db));
  uint64_t n = (uint64_t)sqlite3_column_int64(s, 0);
  sqlite3_finalize(s);
  return n;
}

uint64_t bank_sum(void) { return number("select sum(balance) from account"); }

uint64_t bank_lines(void) { return number("select count(*) from log"); }
