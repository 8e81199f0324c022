/* long_run TRANSACTIONS [FILE]: four threads count words up, and whichever finds that 1,000 entries of the journal wait hands them out,
 * so that memory doesn't grow. The file gets these texts and the last one, one behind another: the text of the run. */
#include "xcalls.h"
#include <pthread.h>
#include <stdio.h>
#include <stdlib.h>

enum { THREADS = 4, WORDS = 16, WAITING = 1000 };

static pthread_mutex_t lock = PTHREAD_MUTEX_INITIALIZER;
static pthread_cond_t ended = PTHREAD_COND_INITIALIZER;
static xc_desk desk;
static FILE *journal;
static unsigned long each, attempts, handed; /* attempts counts under the mutex, as handed does: each of them makes an entry */

static void enter(void) { pthread_mutex_lock(&lock); }
static void leave(void) { pthread_cond_broadcast(&ended), pthread_mutex_unlock(&lock); }
static void pause_a_while(void) { pthread_cond_wait(&ended, &lock); }
static const xc_lock shared = {enter, leave, pause_a_while};

/* A call of a body, under the mutex; a code that isn't XC_OK is handed on. */
#define CALL(call) do { enter(); int32_t code = (call); leave(); if (code != XC_OK) return code; } while (0)

static int32_t count_up(xc_client *c, void *arg) {
  const uint64_t at = *(const uint64_t *)arg;
  enter(), attempts++, leave();
  CALL(xc_load(XC_BY(c), at, XC_TO(c)));
  CALL(xc_store(XC_BY(c), at, c->value + 1, XC_TO(c)));
  return XC_OK;
}

static int32_t add_up(xc_client *c, void *arg) {
  uint64_t sum = 0;
  for (uint64_t at = 0; at < WORDS; at++, sum += c->value) CALL(xc_load(XC_BY(c), at, XC_TO(c)));
  *(uint64_t *)arg = sum;
  return XC_OK;
}

/* Writes a text where there is a file for it, and frees it. Under the mutex, or by one thread alone. */
static int keep(xc_text *text, size_t length) {
  static char piece[65536];
  size_t copied = 0;
  for (size_t at = 0; journal && at < length; at += copied)
    if (xc_copy_text(text, at, piece, sizeof piece, &copied) || fwrite(piece, 1, copied, journal) != copied) return 1;
  return xc_free_text(text) != XC_OK;
}

/* Hands the journal out if so many entries wait. */
static int hand_out(void) {
  xc_text text = {NULL};
  size_t length;
  if (attempts - handed < WAITING) return 0;
  handed = attempts;
  return xc_hand_out(&desk, &text, &length) != XC_OK || keep(&text, length);
}

static void *work(void *number) {
  xc_client c = {&desk, *(uint32_t *)number, 0, 0};
  unsigned seed = c.number;
  for (unsigned long i = 0; i < each; i++) {
    uint64_t at = (unsigned)rand_r(&seed) % WORDS;
    int wrong = xc_run(&c, &shared, count_up, &at) != XC_OK;
    enter();
    wrong = wrong || hand_out();
    leave();
    if (wrong) return number;
  }
  return NULL;
}

/* The most memory that the process had, in KiB. */
static long most_memory(void) {
  char line[256];
  long found = 0;
  FILE *status = fopen("/proc/self/status", "r");
  while (status && fgets(line, sizeof line, status)) sscanf(line, "VmHWM: %ld", &found);
  if (status) fclose(status);
  return found;
}

int main(int count, char **words) {
  pthread_t ids[THREADS];
  uint32_t numbers[THREADS] = {1, 2, 3, 4}, line;
  xc_client first = {&desk, 1, 0, 0};
  xc_text text = {NULL};
  size_t length;
  uint64_t sum = 0;
  void *wrong = NULL;
  each = (count > 1 ? strtoul(words[1], NULL, 10) : 10000) / THREADS;
  if (count > 2 && !(journal = fopen(words[2], "wb"))) return 2;
  if (xc_open(&desk, WORDS, THREADS, "", 0, &line)) return 2;
  for (int i = 0; i < THREADS; i++)
    if (pthread_create(&ids[i], NULL, work, &numbers[i])) return 2;
  for (int i = 0; i < THREADS; i++)
    if (pthread_join(ids[i], &wrong) || wrong) return 2;
  if (xc_run(&first, &shared, add_up, &sum) || xc_finish(&desk, &text, &length) || keep(&text, length)) return 2;
  fprintf(stderr, "%lu attempts, at most %ld KiB\n", attempts, most_memory());
  printf("%lu transactions, sum %llu\n", each * THREADS, (unsigned long long)sum);
  return (journal && fclose(journal)) || sum != each * THREADS;
}
