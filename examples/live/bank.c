/* Transfers between accounts, which are words, by four threads under one mutex. Each puts a line into a log before it looks whether
 * there is enough; where there isn't, its abort cuts the line off again. In the end the sum is as before, and the log has a line for
 * each transfer that was done. */
#include "xcalls.h"
#include <pthread.h>
#include <stdio.h>
#include <stdlib.h>

enum { THREADS = 4, TRANSFERS = 250, ACCOUNTS = 8, OPENING = 1000 };

static pthread_mutex_t lock = PTHREAD_MUTEX_INITIALIZER;
static pthread_cond_t ended = PTHREAD_COND_INITIALIZER;
static xc_desk desk;

struct transfer { uint64_t from, to, amount; int thread, number; unsigned runs; };
static unsigned done, refused, other, runs; /* counted under the mutex */

static void enter(void) { pthread_mutex_lock(&lock); }
static void leave(void) { pthread_cond_broadcast(&ended), pthread_mutex_unlock(&lock); }
static void pause_a_while(void) { pthread_cond_wait(&ended, &lock); }
static const xc_lock shared = {enter, leave, pause_a_while};

/* A call of a body, under the mutex; a code that isn't XC_OK is handed on. */
#define CALL(call) do { enter(); int32_t code = (call); leave(); if (code != XC_OK) return code; } while (0)

static int32_t deposit_all(xc_client *c, void *arg) {
  (void)arg;
  for (uint64_t at = 0; at < ACCOUNTS; at++) CALL(xc_store(XC_BY(c), at, OPENING, XC_TO(c)));
  CALL(xc_create(XC_BY(c), XC_TEXT("log"), XC_TO(c)));
  return XC_OK;
}

static int32_t transfer(xc_client *c, void *arg) {
  struct transfer *t = arg;
  char line[96];
  t->runs++;
  CALL(xc_load(XC_BY(c), t->from, XC_TO(c)));
  uint64_t from = c->value;
  CALL(xc_open_file(XC_BY(c), XC_TEXT("log"), XC_TO(c)));
  uint16_t log = (uint16_t)c->value;
  int length = snprintf(line, sizeof line, "%d.%d: %d from %d to %d\n", t->thread, t->number, (int)t->amount, (int)t->from, (int)t->to);
  CALL(xc_append(XC_BY(c), log, line, (size_t)length, XC_TO(c)));
  if (from < t->amount) return XC_ABORTED;
  CALL(xc_store(XC_BY(c), t->from, from - t->amount, XC_TO(c)));
  CALL(xc_load(XC_BY(c), t->to, XC_TO(c)));
  CALL(xc_store(XC_BY(c), t->to, c->value + t->amount, XC_TO(c)));
  CALL(xc_close_handle(XC_BY(c), log, XC_TO(c)));
  return XC_OK;
}

static void *branch(void *arg) {
  int thread = *(int *)arg;
  xc_client c = {&desk, (uint32_t)thread + 1, 0, 0};
  unsigned seed = 7u + (unsigned)thread;
  for (int i = 0; i < TRANSFERS; i++) {
    struct transfer t = {.thread = thread, .number = i, .amount = 1 + (unsigned)rand_r(&seed) % 900};
    t.from = (unsigned)rand_r(&seed) % ACCOUNTS;
    t.to = (t.from + 1 + (unsigned)rand_r(&seed) % (ACCOUNTS - 1)) % ACCOUNTS;
    int32_t code = xc_run(&c, &shared, transfer, &t);
    enter();
    runs += t.runs;
    *(code == XC_OK ? &done : code == XC_ABORTED ? &refused : &other) += 1;
    leave();
  }
  return NULL;
}

/* The sum of the accounts, and how many lines of the log were counted, up to which byte, and whether that is all. */
struct found { uint64_t sum, lines, from; int all; };

/* Looks at 8 KiB of the log more: a transaction takes 16 KiB at most. What was found before is the first, and what then is the second. */
static int32_t look(xc_client *c, void *arg) {
  struct found *found = arg, now = {0, found[0].lines, found[0].from, 0};
  char bytes[XC_MOST_CALL_BYTES];
  for (uint64_t at = 0; at < ACCOUNTS; at++, now.sum += c->value) CALL(xc_load(XC_BY(c), at, XC_TO(c)));
  CALL(xc_open_file(XC_BY(c), XC_TEXT("log"), XC_TO(c)));
  uint16_t log = (uint16_t)c->value;
  CALL(xc_seek(XC_BY(c), log, now.from, XC_TO(c)));
  for (int i = 0; i < 8 && !now.all; i++) {
    CALL(xc_read(XC_BY(c), log, bytes, sizeof bytes, XC_TO(c)));
    now.all = c->kind != XC_GOT;
    for (uint64_t at = 0; !now.all && at < c->value; at++, now.from++) now.lines += bytes[at] == '\n';
  }
  CALL(xc_close_handle(XC_BY(c), log, XC_TO(c)));
  found[1] = now;
  return XC_OK;
}

int main(void) {
  uint32_t line;
  xc_client first = {&desk, 1, 0, 0};
  xc_text text = {NULL};
  size_t length;
  pthread_t ids[THREADS];
  int threads[THREADS] = {0, 1, 2, 3};
  struct found found[2] = {{0}};
  if (xc_open(&desk, ACCOUNTS, THREADS, "", 0, &line) || xc_run(&first, &shared, deposit_all, NULL)) return 2;
  for (int i = 0; i < THREADS; i++)
    if (pthread_create(&ids[i], NULL, branch, &threads[i])) return 2;
  for (int i = 0; i < THREADS; i++) pthread_join(ids[i], NULL);
  for (; !found[1].all; found[0] = found[1])
    if (xc_run(&first, &shared, look, found)) return 2;
  if (xc_finish(&desk, &text, &length) || xc_free_text(&text)) return 2;
  fprintf(stderr, "%u done, %u refused, %u runs of a body, a text of %zu bytes\n", done, refused, runs, length);
  printf("%u transfers ended, %u otherwise\nsum %llu\na line for each that was done: %s\n", done + refused, other,
         (unsigned long long)found[1].sum, found[1].lines == done ? "yes" : "no");
  return found[1].sum != ACCOUNTS * OPENING || found[1].lines != done;
}
