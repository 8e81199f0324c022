/* GCC's transactions: the accounts are in transactional memory; the line is kept and written by an action at the commit, since
 * a transaction that may abort can't write before. An action's order beside other commits isn't fixed, so a mutex orders the writes. */
#include "bank.h"
#include <fcntl.h>
#include <unistd.h>

extern void _ITM_addUserCommitAction(void (*)(void *), uint64_t, void *) __attribute__((transaction_pure));

static uint64_t accounts[ACCOUNTS];
static pthread_mutex_t lock = PTHREAD_MUTEX_INITIALIZER;
static int log_file = -1;
static uint64_t lines;
static size_t log_end, log_room;
static char *log_bytes;

void bank_open(const char *file) {
  for (int i = 0; i < ACCOUNTS; i++) accounts[i] = OPENING;
  if (!file) return;
  log_file = open(file, O_WRONLY | O_CREAT | O_TRUNC | O_APPEND, 0600);
  if (log_file < 0) bank_fail("no log");
}

static void write_line(void *at) {
  const struct transfer *t = at;
  pthread_mutex_lock(&lock);
  if (log_file >= 0) {
    if (write(log_file, t->line, t->len) != (ssize_t)t->len) bank_fail("a write failed");
  } else {
    if (log_end + t->len > log_room) {
      log_room = log_room ? 2 * log_room : 65536;
      log_bytes = realloc(log_bytes, log_room);
      if (!log_bytes) bank_fail("no memory");
    }
    memcpy(log_bytes + log_end, t->line, t->len);
    log_end += t->len;
  }
  lines++;
  pthread_mutex_unlock(&lock);
}

int bank_transfer(const struct transfer *t) {
  int done = 0;
  __transaction_atomic {
    if (accounts[t->from] >= t->amount) {
      accounts[t->from] -= t->amount;
      accounts[t->to] += t->amount;
      _ITM_addUserCommitAction(write_line, 1, (void *)t);
      done = 1;
    }
  }
  return done;
}

uint64_t bank_sum(void) {
  uint64_t sum = 0;
  for (int i = 0; i < ACCOUNTS; i++) sum += accounts[i];
  return sum;
}

uint64_t bank_lines(void) { return lines; }
