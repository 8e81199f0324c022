/* xcalls: the accounts are words, and the log is a file of a host in memory. Each thread is a client, and takes the mutex for each call
   alone. So it needs no FILE. The file has room for 65,536 bytes, and 10,000 entries of the journal, failed attempts among them, may wait
   to be handed out: here none is. */
#include "bank.h"
#include "xcalls.h"

static pthread_mutex_t lock = PTHREAD_MUTEX_INITIALIZER;
static pthread_cond_t ended = PTHREAD_COND_INITIALIZER;
static xc_desk desk;
static uint32_t clients;
static _Thread_local xc_client me;
enum { CLIENTS = 65 };

static void enter(void) { pthread_mutex_lock(&lock); }

static void leave(void) {
  pthread_cond_broadcast(&ended);
  pthread_mutex_unlock(&lock);
}

static void wait_for_an_end(void) { pthread_cond_wait(&ended, &lock); }

static const xc_lock shared = {enter, leave, wait_for_an_end};

#define CALL(call) do { enter(); int32_t code = (call); leave(); if (code != XC_OK) return code; } while (0)

/* The client of this thread: the next number that no thread has. */
static xc_client *client(void) {
  if (me.desk == NULL) me = (xc_client){.desk = &desk, .number = __atomic_add_fetch(&clients, 1, __ATOMIC_RELAXED)};
  return &me;
}

static int32_t open_all(xc_client *c, void *unused) {
  (void)unused;
  for (uint64_t at = 0; at < ACCOUNTS; at++) CALL(xc_store(XC_BY(c), at, OPENING, XC_TO(c)));
  CALL(xc_create(XC_BY(c), XC_TEXT("log"), XC_TO(c)));
  return XC_OK;
}

void bank_open(const char *file) {
  uint32_t line;
  if (file) bank_fail("xcalls has its log in memory");
  if (xc_open(&desk, ACCOUNTS, CLIENTS, "", 0, &line)) bank_fail("no desk");
  if (xc_run(client(), &shared, open_all, NULL)) bank_fail("the accounts aren't opened");
}

static int32_t body(xc_client *c, void *of) {
  const struct transfer *t = of;
  CALL(xc_open_file(XC_BY(c), XC_TEXT("log"), XC_TO(c)));
  uint16_t log = (uint16_t)c->value;
  CALL(xc_append(XC_BY(c), log, t->line, t->len, XC_TO(c)));
  CALL(xc_load(XC_BY(c), t->from, XC_TO(c)));
  if (c->value < t->amount) return XC_ABORTED;
  CALL(xc_store(XC_BY(c), t->from, c->value - t->amount, XC_TO(c)));
  CALL(xc_load(XC_BY(c), t->to, XC_TO(c)));
  CALL(xc_store(XC_BY(c), t->to, c->value + t->amount, XC_TO(c)));
  CALL(xc_close_handle(XC_BY(c), log, XC_TO(c)));
  return XC_OK;
}

int bank_transfer(const struct transfer *t) {
  int32_t code = xc_run(client(), &shared, body, (void *)t);
  if (code != XC_OK && code != XC_ABORTED) bank_fail("a transfer ended otherwise");
  return code == XC_OK;
}

static uint64_t found;

static int32_t add_up(xc_client *c, void *unused) {
  (void)unused;
  found = 0;
  for (uint64_t at = 0; at < ACCOUNTS; at++) {
    CALL(xc_load(XC_BY(c), at, XC_TO(c)));
    found += c->value;
  }
  return XC_OK;
}

uint64_t bank_sum(void) {
  if (xc_run(client(), &shared, add_up, NULL)) bank_fail("the sum isn't read");
  return found;
}

/* A place in the log, and how many lines are in front of it. */
struct place { uint64_t at, lines; };

/* A transaction reads 16,384 bytes at most, so this one goes on from a place for 8 KiB. */
static int32_t count_lines(xc_client *c, void *arg) {
  struct place *place = arg, new = *place;
  char bytes[1024];
  CALL(xc_open_file(XC_BY(c), XC_TEXT("log"), XC_TO(c)));
  uint16_t log = (uint16_t)c->value;
  CALL(xc_seek(XC_BY(c), log, new.at, XC_TO(c)));
  for (int pieces = 0; pieces < 8; pieces++) {
    CALL(xc_read(XC_BY(c), log, bytes, sizeof bytes, XC_TO(c)));
    if (c->kind != XC_GOT) break;
    for (uint64_t i = 0; i < c->value; i++) new.lines += bytes[i] == '\n';
    new.at += c->value;
  }
  CALL(xc_close_handle(XC_BY(c), log, XC_TO(c)));
  *place = new;
  return XC_OK;
}

uint64_t bank_lines(void) {
  struct place place = {0, 0};
  uint64_t before;
  do {
    before = place.at;
    if (xc_run(client(), &shared, count_lines, &place)) bank_fail("the log isn't read");
  } while (place.at > before);
  return place.lines;
}
