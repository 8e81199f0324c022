/* Transfers between accounts, each with a line in a log: what each peer runs, in threads. A peer defines the four functions below;
 * main is here, and each peer is a program of its own. Usage: PEER THREADS TRANSFERS [FILE]; a thread makes so many transfers.
 * It prints the nanoseconds of processor and of wall time a transfer, and how many were done; it ends with status 1 if the
 * sum of the accounts or the number of lines is wrong. */
#ifndef BANK_H
#define BANK_H
#include <pthread.h>
#include <stdint.h>
#include <stdio.h>
#include <stdlib.h>
#include <string.h>
#include <time.h>

enum { ACCOUNTS = 64, OPENING = 1000, LINE = 32 };

struct transfer { uint32_t from, to; uint64_t amount; char line[LINE]; size_t len; };

void bank_open(const char *file);              /* every account has OPENING */
int bank_transfer(const struct transfer *t);   /* 1: done, 0: too little there, and nothing was changed */
uint64_t bank_sum(void);
uint64_t bank_lines(void);                     /* how many lines the log has */

static void bank_fail(const char *what) {
  fprintf(stderr, "bank: %s\n", what);
  exit(2);
}

/* the transfers of a thread are the same in each run: xorshift from its number */
static uint64_t bank_next(uint64_t *x) {
  *x ^= *x << 13;
  *x ^= *x >> 7;
  *x ^= *x << 17;
  return *x;
}

static struct transfer bank_draw(uint64_t *x) {
  struct transfer t;
  t.from = bank_next(x) % ACCOUNTS;
  t.to = (t.from + 1 + bank_next(x) % (ACCOUNTS - 1)) % ACCOUNTS;
  t.amount = 1 + bank_next(x) % 100;
  t.len = (size_t)snprintf(t.line, LINE, "%u %u %llu\n", t.from, t.to, (unsigned long long)t.amount);
  return t;
}

struct bank_thread { pthread_t id; uint64_t seed; long transfers, done; };

static void *bank_work(void *at) {
  struct bank_thread *me = at;
  for (long i = 0; i < me->transfers; i++) {
    struct transfer t = bank_draw(&me->seed);
    me->done += bank_transfer(&t);
  }
  return NULL;
}

static double bank_clock(clockid_t which) {
  struct timespec t;
  clock_gettime(which, &t);
  return (double)t.tv_sec * 1e9 + (double)t.tv_nsec;
}

int main(int argc, char **argv) {
  if (argc < 3) bank_fail("usage: PEER THREADS TRANSFERS [FILE]");
  int threads = atoi(argv[1]);
  long transfers = atol(argv[2]);
  if (threads < 1 || threads > 64 || transfers < 1) bank_fail("1 to 64 threads, and a transfer at least");
  bank_open(argc > 3 ? argv[3] : NULL);
  struct bank_thread workers[64] = {0};
  double wall = bank_clock(CLOCK_MONOTONIC), busy = bank_clock(CLOCK_PROCESS_CPUTIME_ID);
  for (int i = 0; i < threads; i++) {
    workers[i].seed = 88172645463325252ull + (uint64_t)i * 7919;
    workers[i].transfers = transfers;
    if (pthread_create(&workers[i].id, NULL, bank_work, &workers[i])) bank_fail("no thread");
  }
  uint64_t done = 0;
  for (int i = 0; i < threads; i++) {
    pthread_join(workers[i].id, NULL);
    done += (uint64_t)workers[i].done;
  }
  wall = bank_clock(CLOCK_MONOTONIC) - wall;
  busy = bank_clock(CLOCK_PROCESS_CPUTIME_ID) - busy;
  double all = (double)threads * (double)transfers;
  printf("%.0f %.0f %llu\n", busy / all, wall / all, (unsigned long long)done);
  if (bank_sum() != (uint64_t)ACCOUNTS * OPENING) bank_fail("the sum of the accounts is wrong");
  if (bank_lines() != done) bank_fail("the log has another number of lines");
  return 0;
}
#endif
