/* A log server: several threads hand in lines, each in a transaction of its own, which numbers the line by a word and appends it to a
 * file. Every fifth line is taken back, by an abort after it was appended. In the end the numbers in the file are 0, 1, 2 and so on. */
#include "xcalls.h"
#include <pthread.h>
#include <stdio.h>
#include <stdlib.h>

enum { WRITERS = 6, LINES = 100, COUNTER = 0, BACK = 5 };

static pthread_mutex_t lock = PTHREAD_MUTEX_INITIALIZER;
static pthread_cond_t ended = PTHREAD_COND_INITIALIZER;
static xc_desk desk;
static const char prologue[] = "file log\n";

struct entry { uint32_t writer; int number, taken_back; };

static void enter(void) { pthread_mutex_lock(&lock); }
static void leave(void) { pthread_cond_broadcast(&ended), pthread_mutex_unlock(&lock); }
static void pause_a_while(void) { pthread_cond_wait(&ended, &lock); }
static const xc_lock shared = {enter, leave, pause_a_while};

/* A call of a body, under the mutex; a code that isn't XC_OK is handed on. */
#define CALL(call) do { enter(); int32_t code = (call); leave(); if (code != XC_OK) return code; } while (0)

static int32_t enter_line(xc_client *c, void *arg) {
  const struct entry *e = arg;
  char line[64];
  CALL(xc_load(XC_BY(c), COUNTER, XC_TO(c)));
  uint64_t at = c->value;
  int length = snprintf(line, sizeof line, "%llu: line %d of writer %u\n", (unsigned long long)at, e->number, e->writer);
  CALL(xc_open_file(XC_BY(c), XC_TEXT("log"), XC_TO(c)));
  uint16_t log = (uint16_t)c->value;
  CALL(xc_append(XC_BY(c), log, line, (size_t)length, XC_TO(c)));
  CALL(xc_store(XC_BY(c), COUNTER, at + 1, XC_TO(c)));
  if (e->taken_back) return XC_ABORTED;
  CALL(xc_close_handle(XC_BY(c), log, XC_TO(c)));
  return XC_OK;
}

/* How many lines were entered, or -1 if an end was none that is due. */
static void *writer(void *arg) {
  uint32_t number = *(uint32_t *)arg;
  xc_client c = {&desk, number, 0, 0};
  long entered = 0;
  for (int i = 0; i < LINES; i++) {
    struct entry e = {number, i, i % BACK == BACK - 1};
    int32_t code = xc_run(&c, &shared, enter_line, &e);
    if (code != (e.taken_back ? XC_ABORTED : XC_OK)) return (void *)-1L;
    entered += !e.taken_back;
  }
  return (void *)entered;
}

/* The whole log, as a text. */
static int32_t read_all(xc_client *c, void *arg) {
  char *text = arg;
  CALL(xc_open_file(XC_BY(c), XC_TEXT("log"), XC_TO(c)));
  uint16_t log = (uint16_t)c->value;
  do {
    CALL(xc_read(XC_BY(c), log, text, 1024, XC_TO(c)));
    text += c->kind == XC_GOT ? c->value : 0;
  } while (c->kind == XC_GOT);
  *text = 0;
  return XC_OK;
}

/* The text of the whole run, into a file: `xcalls_check` can judge it. */
static int write_run(const char *path, xc_text *run, size_t length) {
  char *bytes = malloc(length);
  size_t copied = 0, written = 0;
  FILE *file = fopen(path, "wb");
  if (bytes && file && xc_copy_text(run, 0, bytes, length, &copied) == XC_OK) written = fwrite(bytes, 1, copied, file);
  free(bytes);
  return (file && fclose(file)) || written != length;
}

int main(int argc, char **argv) {
  static char text[65536 + 1025];
  pthread_t ids[WRITERS];
  uint32_t numbers[WRITERS], bad_line;
  xc_text run = {NULL};
  size_t length;
  long entered = 0, lines = 0, ordered = 0;
  if (xc_open(&desk, 1, WRITERS, prologue, sizeof prologue - 1, &bad_line)) return fprintf(stderr, "line %u\n", bad_line), 2;
  for (uint32_t i = 0; i < WRITERS; i++) {
    numbers[i] = i + 1;
    if (pthread_create(&ids[i], NULL, writer, &numbers[i])) return 2;
  }
  for (int i = 0; i < WRITERS; i++) {
    void *of_one;
    if (pthread_join(ids[i], &of_one) || (long)of_one < 0) return 2;
    entered += (long)of_one;
  }
  xc_client first = {&desk, 1, 0, 0};
  if (xc_run(&first, &shared, read_all, text) || xc_finish(&desk, &run, &length)) return 2;
  if ((argc > 1 && write_run(argv[1], &run, length)) || xc_free_text(&run)) return 2;
  for (char *line = text; *line; line = strchr(line, '\n') + 1, lines++) ordered += strtol(line, NULL, 10) == lines;
  printf("%ld entered, %ld in the log, %ld in order\n", entered, lines, ordered);
  return entered != lines || ordered != lines;
}
