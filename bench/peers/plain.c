/* The transactions of bench/workload as a plain loop over words in memory and a log, with an undo log as an abort would need it.
   plain JOBS TRANSACTIONS: does them, and prints the words and the log. */
#include <stdint.h>
#include <stdio.h>
#include <stdlib.h>
#include <string.h>

enum { RECORD = 16, MOST_UNDO = 16 };

struct undo {
  uint64_t *place;
  uint64_t before;
};

struct log {
  const char *name;
  char *bytes;
  size_t length;
  size_t room;
};

static struct undo undo[MOST_UNDO];
static size_t undone;
static size_t length_before;

static void store(uint64_t *place, uint64_t value) {
  undo[undone].place = place;
  undo[undone].before = *place;
  undone += 1;
  *place = value;
}

static struct log *open_log(struct log *log, const char *name) {
  return strcmp(log->name, name) == 0 ? log : NULL;
}

static void append(struct log *log, const char *record) {
  if (log->length + RECORD > log->room) {
    log->room = log->room == 0 ? 4096 : 2 * log->room;
    log->bytes = realloc(log->bytes, log->room);
    if (log->bytes == NULL) exit(1);
  }
  length_before = log->length;
  memcpy(log->bytes + log->length, record, RECORD);
  log->length += RECORD;
}

static void transaction(uint64_t *words, struct log *file, unsigned job, unsigned number) {
  undone = 0;
  uint64_t x = words[2 * job];
  uint64_t y = words[2 * job + 1];
  store(&words[2 * job], y + 1);
  store(&words[2 * job + 1], x + 1);
  struct log *log = open_log(file, "log");
  if (log == NULL) exit(1);
  char record[2 * RECORD];
  snprintf(record, sizeof record, "job %03u, tx %04u", job, number);
  append(log, record);
  /* The commit: nothing is undone. */
  undone = 0;
}

int main(int count, char **args) {
  if (count != 3) return 2;
  unsigned jobs = (unsigned)atoi(args[1]);
  unsigned transactions = (unsigned)atoi(args[2]);
  uint64_t *words = calloc(2 * jobs + 1, sizeof *words);
  struct log log = {"log", NULL, 0, 0};
  if (words == NULL) return 1;
  for (unsigned job = 0; job < jobs; job += 1)
    for (unsigned number = 0; number < transactions; number += 1) transaction(words, &log, job, number);
  for (unsigned at = 0; at < 2 * jobs; at += 1) printf("word %u %llu\n", at, (unsigned long long)words[at]);
  fwrite(log.bytes, 1, log.length, stdout);
  putchar('\n');
  return 0;
}
