/* One mutex, and an undo by hand: the log is appended to at once, and cut where the transfer can't be made. */
#include "bank.h"
#include <fcntl.h>
#include <unistd.h>

static pthread_mutex_t lock = PTHREAD_MUTEX_INITIALIZER;
static uint64_t accounts[ACCOUNTS];
static int log_file = -1;
static off_t log_end;
static char *log_bytes;
static size_t log_room;
static uint64_t lines;

void bank_open(const char *file) {
  for (int i = 0; i < ACCOUNTS; i++) accounts[i] = OPENING;
  if (!file) return;
  log_file = open(file, O_RDWR | O_CREAT | O_TRUNC, 0600);
  if (log_file < 0) bank_fail("no log");
}

static void append(const struct transfer *t) {
  if (log_file >= 0) {
    if (pwrite(log_file, t->line, t->len, log_end) != (ssize_t)t->len) bank_fail("a write failed");
  } else {
    if ((size_t)log_end + t->len > log_room) {
      log_room = log_room ? 2 * log_room : 65536;
      log_bytes = realloc(log_bytes, log_room);
      if (!log_bytes) bank_fail("no memory");
    }
    memcpy(log_bytes + log_end, t->line, t->len);
  }
  log_end += (off_t)t->len;
}

static void cut(off_t end) {
  if (log_file >= 0 && ftruncate(log_file, end)) bank_fail("a cut failed");
  log_end = end;
}

int bank_transfer(const struct transfer *t) {
  pthread_mutex_lock(&lock);
  off_t before = log_end;
  append(t);
  int done = accounts[t->from] >= t->amount;
  if (done) {
    accounts[t->from] -= t->amount;
    accounts[t->to] += t->amount;
    lines++;
  } else {
    cut(before);
  }
  pthread_mutex_unlock(&lock);
  return done;
}

uint64_t bank_sum(void) {
  uint64_t sum = 0;
  for (int i = 0; i < ACCOUNTS; i++) sum += accounts[i];
  return sum;
}

uint64_t bank_lines(void) { return lines; }
