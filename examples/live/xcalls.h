/* xcalls.h: system calls inside memory transactions, from C. The library is crates/xc_live_c; docs/LIVE.md says more of clients.
 *
 * A desk has words, files, pipes and pairs, and clients, numbered from 1. A client has at most one transaction, and is used by one
 * thread at a time. The library keeps no lock: threads make their calls of a desk under one mutex of their own. No call waits.
 *
 * Each function gives a code. No pointer is null but that of no bytes. A handle is what `value` was when it was made. */
#ifndef XCALLS_H
#define XCALLS_H
#include <stdint.h>
#include <string.h>

enum xc_code {
  XC_OK = 0,              /* it is done, or kept for the commit */
  XC_WAIT = 1,            /* xc_begin: who ended the client's last attempt is still active; begin again when somebody has ended */
  XC_AGAIN = 2,           /* the transaction was rolled back because of another one, or for want of memory: begin again */
  XC_ABORTED = 3,         /* xc_abort: it is rolled back, as asked */
  XC_ENDED = 4,           /* xc_begin: the client isn't there, or begins no more: no attempt or no number of a transaction is left */
  XC_NOT_BEGUN = 5,       /* the client has no transaction, or an xc_abort ended it. Nothing was changed, as by each code below */
  XC_BEGUN = 6,           /* xc_begin: the client has one; xc_finish: some client has one */
  XC_MISPLACED = 7,       /* a save within a block, or a keep or a back outside of one */
  XC_CLOSED = 8,          /* the desk is closed; xc_copy_text, xc_free_text: there is no text */
  XC_OPEN = 9,            /* xc_open: the desk is open; xc_hand_out, xc_finish: the text is there already */
  XC_BAD_NAME = 10,       /* a name has 1 to 64 letters, digits, dots, underscores and dashes, and isn't of dots alone */
  XC_TOO_MANY_NAMES = 11, /* XC_MOST_NAMES have been used */
  XC_REFUSED = 12,        /* the call was refused, or the host failed: `kind` says how. The transaction goes on */
  XC_TOO_SMALL = 13,      /* there is too little room for what would be written */
  XC_NO_MEMORY = 14,      /* there was none to begin, or before the call was asked; xc_finish: none for the text, but the desk is closed */
  XC_BAD_TEXT = 15,       /* xc_open: the text is no prologue, or a number is out of range */
  XC_FULL = 16            /* xc_begin: XC_MOST_ENTRIES wait, those of active transactions among them: xc_hand_out first */
};

/* What a call replied, where its code is XC_OK or XC_REFUSED; from XC_NO_NAME on it was refused. */
enum xc_kind {
  XC_NUMBER = 1, XC_GOT, XC_MADE, XC_MADE_PAIR, XC_DONE, XC_LATE, XC_UNDONE, XC_END, XC_EMPTY,
  XC_NO_NAME, XC_EXISTS, XC_BAD_HANDLE, XC_PAST_END, XC_TOO_BIG, XC_TOO_MUCH, XC_BAD_WORD, XC_FAULT
};

enum {
  XC_MOST_CALL_BYTES = 1024, /* that a call reads or writes */
  XC_MOST_NAME = 64,         /* bytes of a name */
  XC_MOST_NAMES = 65536,     /* different names that are used with a desk */
  XC_MOST_CLIENTS = 1000,
  XC_MOST_WORDS = 4096,      /* and one at least */
  XC_MOST_ENTRIES = 10000    /* of the journal that wait for xc_hand_out: one for each attempt */
};

typedef struct { void *at; } xc_desk; /* null before xc_open. It isn't copied */
typedef struct { void *at; } xc_text; /* what a run prints; null before xc_hand_out and xc_finish. It isn't copied */

/* A client: its desk, its number, and what its last call replied: the kind, and the number, the handle or the count of bytes */
typedef struct { xc_desk *desk; uint32_t number, kind; uint64_t value; } xc_client;

/* The prologue is lines `file`, `pipe`, `pair`, `fault` and `grain` of a script. Each word begins as 0: a `words` or `word` line is
 * refused, and so is a job. `bad_line` is the first line that is refused, counted from 1; the one behind the prologue says the words. */
int32_t xc_open(xc_desk *d, uint32_t words, uint32_t clients, const void *prologue, size_t length, uint32_t *bad_line);
/* The same, where a client begins no more after so many attempts at one transaction: one at least. xc_open sets no bound. */
int32_t xc_open_with(xc_desk *d, uint32_t words, uint32_t clients, uint32_t attempts, const void *prologue, size_t length,
                     uint32_t *bad_line);
int32_t xc_close(xc_desk *d); /* a transaction that goes on is dropped */
int32_t xc_begin(xc_desk *d, uint32_t client);
int32_t xc_commit(xc_desk *d, uint32_t client);
int32_t xc_abort(xc_desk *d, uint32_t client); /* by any thread. The client's own one hears XC_NOT_BEGUN at its next call */

/* The journal, printed. xc_hand_out keeps the entries that it didn't hand out before as a text, each one once and in order: the desk
 * holds them no more, and goes on as before, also beside transactions. `length` is the text's bytes, 0 where nothing waits. Where
 * XC_MOST_ENTRIES wait a begin says XC_FULL, until they are handed out. xc_journal copies what waits; at XC_TOO_SMALL it says its length. */
int32_t xc_hand_out(xc_desk *d, xc_text *text, size_t *length);
int32_t xc_journal(xc_desk *d, void *into, size_t room, size_t *length);

/* Where no client has a transaction, closes the desk, and keeps the last text: the entries that weren't handed out, how each client
 * ended, the words, what is kept, and the totals of all entries. The texts of xc_hand_out with this one behind them are that of the run.
 * xc_copy_text copies the bytes from `from` on for which there is room. */
int32_t xc_finish(xc_desk *d, xc_text *text, size_t *length);
int32_t xc_copy_text(xc_text *text, size_t from, void *into, size_t room, size_t *copied);
int32_t xc_free_text(xc_text *text);

/* The calls. Each says what it replied; those of a late call, which is done at the commit, only say XC_LATE. */
#define XC_OF xc_desk *d, uint32_t client
#define XC_SAYS uint32_t *kind, uint64_t *value
int32_t xc_load(XC_OF, uint64_t at, XC_SAYS);                                    /* XC_NUMBER */
int32_t xc_store(XC_OF, uint64_t at, uint64_t number, XC_SAYS);
int32_t xc_open_file(XC_OF, const void *name, size_t length, XC_SAYS);           /* XC_MADE: a handle */
int32_t xc_create(XC_OF, const void *name, size_t length, XC_SAYS);              /* XC_MADE; XC_EXISTS */
int32_t xc_read(XC_OF, uint16_t handle, void *into, size_t room, XC_SAYS);       /* XC_GOT: so many bytes; XC_END */
int32_t xc_overwrite(XC_OF, uint16_t handle, const void *bytes, size_t length, XC_SAYS);
int32_t xc_append(XC_OF, uint16_t handle, const void *bytes, size_t length, XC_SAYS);
int32_t xc_seek(XC_OF, uint16_t handle, uint64_t to, XC_SAYS);
int32_t xc_length(XC_OF, uint16_t handle, XC_SAYS);                              /* XC_NUMBER */
int32_t xc_close_handle(XC_OF, uint16_t handle, XC_SAYS);
int32_t xc_rename(XC_OF, const void *from, size_t from_length, const void *to, size_t to_length, XC_SAYS);
int32_t xc_unlink(XC_OF, const void *name, size_t length, XC_SAYS);              /* late */
int32_t xc_sync(XC_OF, uint16_t handle, XC_SAYS);                                /* late */
int32_t xc_pipe(XC_OF, XC_SAYS);                                                 /* XC_MADE */
int32_t xc_read_pipe(XC_OF, uint16_t handle, void *into, size_t room, XC_SAYS);  /* XC_GOT; XC_EMPTY; XC_END */
int32_t xc_write_pipe(XC_OF, uint16_t handle, const void *bytes, size_t length, XC_SAYS); /* late */
int32_t xc_pair(XC_OF, XC_SAYS, uint64_t *other);                                /* XC_MADE_PAIR: the handles of sides 0 and 1 */
int32_t xc_send(XC_OF, uint16_t handle, const void *bytes, size_t length, XC_SAYS); /* late */
int32_t xc_receive(XC_OF, uint16_t handle, void *into, size_t room, XC_SAYS);    /* XC_GOT; room for XC_MOST_CALL_BYTES is needed */
int32_t xc_shutdown(XC_OF, uint16_t handle, XC_SAYS);                            /* late, of a pipe or a pair */
int32_t xc_save(XC_OF, XC_SAYS); /* an inner block begins */
int32_t xc_keep(XC_OF, XC_SAYS); /* it ends, and what it did stays */
int32_t xc_back(XC_OF, XC_SAYS); /* it ends, and is undone. XC_UNDONE: so many faults on the way */

/* The arguments of a call before and behind its own: xc_load(XC_BY(c), at, XC_TO(c)) */
#define XC_BY(c) (c)->desk, (c)->number
#define XC_TO(c) &(c)->kind, &(c)->value
#define XC_TEXT(text) (text), strlen(text)

/* How threads share a desk. `enter` takes their mutex, and `leave` gives it up and wakes who is in `pause`, which gives it up and
 * takes it again when somebody has left. */
typedef struct { void (*enter)(void), (*leave)(void), (*pause)(void); } xc_lock;

/* Runs a body as a transaction until it has committed or aborted itself: its code is that of the body, or else of the commit. The
 * body enters and leaves around its calls. It may run several times, so it changes nothing of its own but what it sets anew. */
static inline int32_t xc_run(xc_client *c, const xc_lock *lock, int32_t (*body)(xc_client *, void *), void *arg) {
  for (int32_t code, ended;;) {
    lock->enter();
    while ((code = xc_begin(XC_BY(c))) == XC_WAIT) lock->pause();
    lock->leave();
    if (code != XC_OK) return code;
    code = body(c, arg);
    lock->enter();
    ended = code == XC_OK ? xc_commit(XC_BY(c)) : code == XC_AGAIN ? code : xc_abort(XC_BY(c));
    lock->leave();
    if (ended != XC_AGAIN) return code == XC_OK ? ended : code;
  }
}
#endif
