/* Random calls of six threads: words, files, pipes, pairs, inner blocks, aborts, and transactions that fall silent, which another thread
 * ends. Usage: six SEED CALLS WORDS PROLOGUE TOLD. It makes so many calls in all, prints the text of the run, which is handed out piece by
 * piece, and writes into TOLD what the clients were told: for each attempt a line `attempt CLIENT`, a line `KIND VALUE OTHER BYTES` for each call that replied, and a line
 * `end CODE`. It ends with status 2 if a code isn't one that is due. */
#include "xcalls.h"
#include <pthread.h>
#include <stdio.h>
#include <stdlib.h>
#include <time.h>

enum { THREADS = 6, PLACES = 24, MOST_STEPS = 14, PIECE = 1000 };
enum what { NOTHING, FILE_HANDLE, PIPE_HANDLE, PAIR_HANDLE };
enum block { NONE, SAVE, KEEP, BACK };

/* What a thread knows: what is open at its handles, now, at the begin and at the save; and of its last call what it makes or closes, which
 * end of a block it is, and which code it may have besides. */
struct thread {
  pthread_t id;
  xc_client c;
  uint64_t seed, other;
  char open[PLACES], before[PLACES], saved[PLACES], got[XC_MOST_CALL_BYTES];
  FILE *log;
  char *log_text;
  size_t log_length;
  enum what makes;
  enum block block;
  int closes, in_block, is_silent;
  int32_t may_say, cut_code;
};

static pthread_mutex_t lock = PTHREAD_MUTEX_INITIALIZER;
static pthread_cond_t ended = PTHREAD_COND_INITIALIZER;
static xc_desk desk;
static _Atomic long calls_left;
static uint32_t words;
static int threads_left = THREADS;
static struct thread threads[THREADS];
static const char *const names[] = {"a", "b", "c", "log", "new-1", "new-2", ".."};

static void fail(const char *what, long code) {
  fprintf(stderr, "six: %s: %ld\n", what, code);
  exit(2);
}

static uint64_t draw(struct thread *t, uint64_t below) {
  t->seed ^= t->seed << 13;
  t->seed ^= t->seed >> 7;
  t->seed ^= t->seed << 17;
  return (t->seed >> 11) % below;
}

/* Waits a moment, or until somebody has left. The mutex is the caller's. */
static void pause_a_moment(void) {
  struct timespec until;
  clock_gettime(CLOCK_REALTIME, &until);
  until.tv_nsec += 300000;
  until.tv_sec += until.tv_nsec / 1000000000;
  until.tv_nsec %= 1000000000;
  pthread_cond_timedwait(&ended, &lock, &until);
}

static void leave(void) { pthread_cond_broadcast(&ended), pthread_mutex_unlock(&lock); }

/* A handle where such a thing is open; one in eight times any. */
static uint16_t handle_of(struct thread *t, enum what what) {
  uint16_t found[PLACES], count = 0;
  for (uint16_t at = 0; at < PLACES; at++)
    if (t->open[at] == (char)what) found[count++] = at;
  return count && draw(t, 8) ? found[draw(t, count)] : (uint16_t)draw(t, 12);
}

static const char *a_name(struct thread *t) {
  const char *name = names[draw(t, sizeof names / sizeof *names)];
  if (*name == '.') t->may_say = XC_BAD_NAME;
  return name;
}

/* A call of a file, at random. */
static int32_t call_a_file(struct thread *t, const char *bytes, size_t length) {
  xc_client *c = &t->c;
  const char *name = a_name(t), *to = a_name(t);
  uint16_t handle = handle_of(t, FILE_HANDLE);
  switch (draw(t, 14)) {
    case 0: case 1: case 2: t->makes = FILE_HANDLE; return xc_open_file(XC_BY(c), XC_TEXT(name), XC_TO(c));
    case 3: t->makes = FILE_HANDLE; return xc_create(XC_BY(c), XC_TEXT(name), XC_TO(c));
    case 4: return xc_rename(XC_BY(c), XC_TEXT(name), XC_TEXT(to), XC_TO(c));
    case 5: return xc_unlink(XC_BY(c), XC_TEXT(name), XC_TO(c));
    case 6: case 7: return xc_read(XC_BY(c), handle, t->got, draw(t, 20), XC_TO(c));
    case 8: return xc_overwrite(XC_BY(c), handle, bytes, length, XC_TO(c));
    case 9: case 10: return xc_append(XC_BY(c), handle, bytes, length, XC_TO(c));
    case 11: return xc_seek(XC_BY(c), handle, draw(t, 50), XC_TO(c));
    case 12: return xc_length(XC_BY(c), handle, XC_TO(c));
    default: return xc_sync(XC_BY(c), handle, XC_TO(c));
  }
}

/* A call of a pipe or a pair, at random. */
static int32_t call_a_channel(struct thread *t, const char *bytes, size_t length) {
  xc_client *c = &t->c;
  uint16_t pipe = handle_of(t, PIPE_HANDLE), side = handle_of(t, PAIR_HANDLE);
  size_t room = draw(t, 6) ? XC_MOST_CALL_BYTES : 10;
  switch (draw(t, 12)) {
    case 0: t->makes = PIPE_HANDLE; return xc_pipe(XC_BY(c), XC_TO(c));
    case 1: case 2: case 3: return xc_read_pipe(XC_BY(c), pipe, t->got, draw(t, 20), XC_TO(c));
    case 4: case 5: return xc_write_pipe(XC_BY(c), pipe, bytes, length, XC_TO(c));
    case 6: t->makes = PAIR_HANDLE; return xc_pair(XC_BY(c), XC_TO(c), &t->other);
    case 7: case 8: return xc_send(XC_BY(c), side, bytes, length, XC_TO(c));
    case 9: case 10:
      if (room < XC_MOST_CALL_BYTES) t->may_say = XC_TOO_SMALL;
      return xc_receive(XC_BY(c), side, t->got, room, XC_TO(c));
    default: return xc_shutdown(XC_BY(c), draw(t, 2) ? pipe : side, XC_TO(c));
  }
}

/* The begin or an end of an inner block, which may be misplaced. */
static int32_t call_a_block(struct thread *t) {
  xc_client *c = &t->c;
  t->block = draw(t, 6) ? t->in_block ? KEEP + draw(t, 2) : SAVE : SAVE + draw(t, 3);
  if ((t->block == SAVE) == t->in_block) t->may_say = XC_MISPLACED;
  return t->block == SAVE ? xc_save(XC_BY(c), XC_TO(c)) : t->block == KEEP ? xc_keep(XC_BY(c), XC_TO(c)) : xc_back(XC_BY(c), XC_TO(c));
}

static int32_t call_at_random(struct thread *t) {
  static const char bytes[1025] = "thirty bytes or less \"of\" \\ \n\t";
  xc_client *c = &t->c;
  size_t length = draw(t, 40) ? draw(t, 30) : sizeof bytes;
  uint64_t word = draw(t, 20) ? draw(t, words) : words, kind = draw(t, 20);
  t->makes = NOTHING, t->block = NONE, t->closes = -1, t->may_say = XC_OK, t->other = 0;
  if (kind < 3) return xc_load(XC_BY(c), word, XC_TO(c));
  if (kind < 6) return xc_store(XC_BY(c), word, draw(t, 1000), XC_TO(c));
  if (kind < 12) return call_a_file(t, bytes, length);
  if (kind < 16) return call_a_channel(t, bytes, length);
  if (kind < 17 + 2 * (uint64_t)t->in_block) return call_a_block(t);
  t->closes = handle_of(t, FILE_HANDLE + draw(t, 3));
  return xc_close_handle(XC_BY(c), (uint16_t)t->closes, XC_TO(c));
}

static void set_open(struct thread *t, uint64_t handle, enum what what) {
  if (handle < PLACES) t->open[handle] = (char)what;
}

/* Notes what a call was told. */
static void note(struct thread *t, int32_t code) {
  xc_client *c = &t->c;
  fprintf(t->log, "%u %llu %llu ", c->kind, (unsigned long long)c->value, (unsigned long long)t->other);
  for (uint64_t at = 0; c->kind == XC_GOT && at < c->value; at++) fprintf(t->log, "%02x", (unsigned char)t->got[at]);
  fputc('\n', t->log);
  if (code != XC_OK) return;
  if (c->kind == XC_MADE || c->kind == XC_MADE_PAIR) set_open(t, c->value, t->makes);
  if (c->kind == XC_MADE_PAIR) set_open(t, t->other, t->makes);
  if (t->closes >= 0) set_open(t, (uint64_t)t->closes, NOTHING);
  if (t->block) t->in_block = t->block == SAVE;
  if (t->block == SAVE) memcpy(t->saved, t->open, PLACES);
  if (t->block == BACK) memcpy(t->open, t->saved, PLACES);
}

/* One call; its code where the transaction goes on no more, and else XC_OK. */
static int32_t step(struct thread *t) {
  pthread_mutex_lock(&lock);
  int32_t code = call_at_random(t);
  calls_left--;
  if (code == XC_OK && t->may_say == XC_MISPLACED) fail("a misplaced call is taken", t->block);
  if (code == XC_OK || code == XC_REFUSED) note(t, code), code = XC_OK;
  else if (code == XC_NOT_BEGUN ? !t->cut_code : code != XC_AGAIN && code != t->may_say) fail("code of a call", code);
  else if (code != XC_AGAIN && code != XC_NOT_BEGUN) code = XC_OK;
  leave();
  if (!draw(t, 3)) nanosleep(&(struct timespec){0, 20000}, NULL);
  return code;
}

/* Begins, as soon as it may. Whether it did. */
static int begin(struct thread *t) {
  int32_t code;
  pthread_mutex_lock(&lock);
  t->cut_code = XC_OK, t->in_block = 0;
  while ((code = xc_begin(XC_BY(&t->c))) == XC_WAIT) pause_a_moment();
  leave();
  if (code != XC_OK && code != XC_ENDED) fail("code of a begin", code);
  memcpy(t->before, t->open, PLACES);
  if (code == XC_OK) fprintf(t->log, "attempt %u\n", t->c.number);
  return code == XC_OK;
}

/* Stays silent until somebody else has ended the transaction. */
static void be_silent(struct thread *t) {
  pthread_mutex_lock(&lock);
  for (t->is_silent = 1; !t->cut_code;) pause_a_moment();
  t->is_silent = 0;
  leave();
}

/* Commits or aborts; the code of the end. */
static int32_t end(struct thread *t) {
  uint64_t chosen = draw(t, 10);
  if (chosen == 0) be_silent(t);
  pthread_mutex_lock(&lock);
  int32_t code = chosen < 7 ? xc_commit(XC_BY(&t->c)) : xc_abort(XC_BY(&t->c));
  leave();
  return code;
}

static void *work(void *arg) {
  struct thread *t = arg;
  while (calls_left > 0 && begin(t)) {
    int32_t code = XC_OK;
    for (uint64_t steps = draw(t, MOST_STEPS); steps > 0 && code == XC_OK; steps--) code = step(t);
    if (code == XC_OK) code = end(t);
    if (code == XC_NOT_BEGUN) code = t->cut_code;
    if (code != XC_OK) memcpy(t->open, t->before, PLACES);
    if (code == XC_NOT_BEGUN || code > XC_ABORTED) fail("code of an end", code);
    fprintf(t->log, "end %d\n", code);
  }
  pthread_mutex_lock(&lock);
  threads_left--;
  leave();
  return NULL;
}

/* Prints a text, in pieces, and frees it. */
static void print_text(xc_text *text, size_t length) {
  size_t copied;
  char piece[PIECE];
  int32_t code;
  for (size_t at = 0; at < length; at += copied) {
    if ((code = xc_copy_text(text, at, piece, sizeof piece, &copied)) || !copied) fail("code of a copy", code);
    fwrite(piece, 1, copied, stdout);
  }
  if ((code = xc_free_text(text)) || text->at || xc_free_text(text) != XC_CLOSED) fail("code of a free", code);
}

/* Hands the journal out, and prints it. Right behind that nothing waits. */
static void hand_out(void) {
  xc_text text = {0};
  size_t length, left;
  int32_t code = xc_hand_out(&desk, &text, &length);
  if (code) fail("code of a handing out", code);
  if (xc_hand_out(&desk, &text, &left) != XC_OPEN) fail("a handing out beside a text", 1);
  if ((code = xc_journal(&desk, NULL, 0, &left)) || left) fail("entries that were handed out", code);
  print_text(&text, length);
}

/* Ends transactions from outside: those that are silent, and now and then one that isn't. Now and then it hands the journal out. */
static void watch(void) {
  struct thread by = {.seed = 99991};
  pthread_mutex_lock(&lock);
  for (; threads_left > 0; pause_a_moment()) {
    struct thread *t = &threads[draw(&by, THREADS)];
    if (!draw(&by, 20)) hand_out();
    if (t->cut_code || draw(&by, t->is_silent ? 4 : 40)) continue;
    int32_t code = xc_abort(XC_BY(&t->c));
    if (code == XC_ABORTED || code == XC_AGAIN) t->cut_code = code;
    else if (code != XC_NOT_BEGUN || t->is_silent) fail("code of an abort from outside", code);
  }
  pthread_mutex_unlock(&lock);
}

/* What the prologue opens: its pipes and pairs have the first handles. */
static void start(struct thread *t, uint32_t number, uint64_t seed, const char *prologue) {
  *t = (struct thread){.c = {&desk, number, 0, 0}, .seed = seed * 1000 + number * 77 + 1};
  uint64_t at = 0;
  for (const char *line = prologue; line; line = strchr(line, '\n') ? strchr(line, '\n') + 1 : NULL) {
    if (!strncmp(line, "pipe ", 5)) set_open(t, at++, PIPE_HANDLE);
    if (!strncmp(line, "pair ", 5)) set_open(t, at++, PAIR_HANDLE), set_open(t, at++, PAIR_HANDLE);
  }
  if (!(t->log = open_memstream(&t->log_text, &t->log_length)) || pthread_create(&t->id, NULL, work, t)) fail("no thread", number);
}

/* Ends the run, and prints the last text. There is no desk any more then. */
static void finish(void) {
  xc_text text = {0};
  size_t length;
  int32_t code = xc_finish(&desk, &text, &length);
  if (code) fail("code of the finish", code);
  print_text(&text, length);
  if (xc_hand_out(&desk, &text, &length) != XC_CLOSED || text.at) fail("a handing out of a closed desk", 1);
}

/* While a client has a transaction there is no finish, and beside it the journal may be handed out. */
static void finish_too_early(void) {
  xc_text text = {0};
  size_t length;
  if (xc_begin(&desk, 1) || xc_begin(&desk, 1) != XC_BEGUN) fail("a begin", 1);
  if (xc_finish(&desk, &text, &length) != XC_BEGUN || text.at) fail("a finish beside a transaction", 1);
  hand_out();
  if (xc_abort(&desk, 1) != XC_ABORTED || xc_abort(&desk, 1) != XC_NOT_BEGUN) fail("an abort", 1);
}

int main(int count, char **arguments) {
  uint32_t line;
  if (count != 6) fail("usage: six SEED CALLS WORDS PROLOGUE TOLD", count);
  calls_left = atol(arguments[2]);
  words = (uint32_t)atol(arguments[3]);
  if (xc_open_with(&desk, words, THREADS, 0, arguments[4], strlen(arguments[4]), &line) != XC_BAD_TEXT || line) fail("no attempt", line);
  if (xc_open(&desk, words, THREADS, arguments[4], strlen(arguments[4]), &line)) fail("the prologue is refused", line);
  finish_too_early();
  for (uint32_t at = 0; at < THREADS; at++) start(&threads[at], at + 1, (uint64_t)atol(arguments[1]), arguments[4]);
  watch();
  FILE *told = fopen(arguments[5], "w");
  if (!told) fail("no file", 5);
  fprintf(told, "attempt 1\nend %d\n", XC_ABORTED);
  for (int at = 0; at < THREADS; at++) {
    pthread_join(threads[at].id, NULL);
    fclose(threads[at].log);
    fwrite(threads[at].log_text, 1, threads[at].log_length, told);
  }
  finish();
  return fclose(told) || fflush(stdout);
}
