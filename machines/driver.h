/* Drivers for real machines. A driver takes pages from the host over a socket, hands them to one machine, and says which are finished.
   katchidul-cups prints through a CUPS queue, katchidul-port writes to a device or a network port. Both are made of the same parts;
   only machine.h's functions differ.

   What a driver keeps is a folder, the state:

       lock                one driver at a time works here
       serves              the name of the spool that this machine serves
       jobs/ID             how far a job is on this machine
       questions/ID        a question to the operator that is open
       answers/ID          the operator's answer, which the driver takes and removes

   The rule behind all others: before a byte of a page goes to the machine, jobs/ID says so, and that lasts. */
#ifndef DRIVER_H
#define DRIVER_H

#define _GNU_SOURCE /* open file description locks, POLLRDHUP */

#include <stdbool.h>
#include <stddef.h>
#include <stdint.h>
#include <stdio.h>

#include "katchidul.h"

#define SPOOL_MAX 64       /* bytes of a spool's name */
#define FILE_MAX 100       /* bytes of an order's file name as the link writes it */
#define SAYS_MAX 200       /* bytes of a sentence for the operator */
#define LINE_MAX_BYTES 256 /* of a message, with its newline */
#define NUMBER_MAX UINT32_C(4294967295)

/* The paper's size has a limit of its own, so that a page's bytes have one. */
#define PAPER_MAX 100
#define SHEET_BYTES (2 * PAPER_MAX * (PAPER_MAX + 2) + 2) /* a cover and a page */

/* How a driver ends. */
enum { ENDED_WELL = 0, ENDED_BY_FAILURE = 1, ENDED_BY_USAGE = 2 };

/* ---- say.c: lines for a person, each with its time */

extern const char *program;
void open_streams(void);
void say(const char *format, ...) __attribute__((format(printf, 1, 2)));
void make_printable(char *text);
_Noreturn void stop(const char *about, const char *why);
long long now_ms(void);

/* ---- number.c */

bool read_number(const char *digits, size_t length, uint32_t least, uint32_t most, uint32_t *number);

/* ---- lasting.c: the state folder */

int open_state(const char *name, bool alone);
size_t read_small(int state, const char *name, char *bytes, size_t size);
void write_lasting(int state, const char *folder, const char *name, const char *bytes, size_t length);
void remove_lasting(int state, const char *folder, const char *name);

/* ---- record.c: how far a job is on this machine */

typedef struct {
  uint32_t finished;       /* pages that are finished for good */
  uint32_t sent;           /* pages of which bytes may have gone to the machine; at least `finished` */
  uint32_t cups;           /* the CUPS job of page `sent` while it is not finished, or 0 */
  char file[FILE_MAX + 1]; /* the order's file name, as the link writes it */
  char town[KATCHIDUL_TOWN_MAX + 1];
} record;

bool record_read(int state, uint32_t id, record *r);
void record_write(int state, uint32_t id, const record *r);

/* ---- order.c: the orders that the host has told of on this link */

typedef struct {
  uint32_t id;
  katchidul_order asks;
  char file[FILE_MAX + 1];
  char town[KATCHIDUL_TOWN_MAX + 1];
} order;

bool order_keep(uint32_t id, const char *file, const uint8_t *bytes, size_t length);
const order *order_find(uint32_t id);
void orders_forget(void);
uint32_t order_pages(const order *o);
uint32_t order_page_rows(const order *o, uint32_t page);

/* ---- louis.c: text to cells */

void braille_open(const char *table);
size_t braille(const char *text, uint8_t *cells, size_t size);

/* ---- cover.c: the lines that say what the pages are */

typedef struct {
  uint32_t width, height; /* cells a line, lines a page */
  bool raw;               /* cells as the library writes them, without lines */
} paper;

typedef struct {
  uint32_t count;
  uint8_t cells[PAPER_MAX][PAPER_MAX]; /* blank to the right of a line's text */
} cover;

void cover_write(const order *o, const paper *p, cover *c);
void heading_write(const order *o, uint32_t page, const paper *p, uint8_t cells[PAPER_MAX]);

/* ---- sheet.c: a page as the machine takes it */

typedef struct {
  uint32_t id, page;
  char file[FILE_MAX + 1];
  char town[KATCHIDUL_TOWN_MAX + 1];
  size_t length;
  uint8_t bytes[SHEET_BYTES];
} sheet;

void sheet_write(const order *o, uint32_t page, uint32_t rows, const uint8_t *cells, const paper *p, sheet *s);

/* ---- link.c: the host's link */

typedef enum { NOTHING_YET, WRONG, SPOOL, RESTART, JOB, PAGE } kind;

typedef struct {
  kind kind;
  uint32_t id, page, rows;
  char name[FILE_MAX + 1]; /* a spool's, or an order's file */
  const uint8_t *body;     /* the order, or the cells */
  size_t length;           /* of the body */
} message;

void link_listen(const char *path);
void link_unlink(void);
int link_fd(void);
bool link_is_open(void);
void link_accept(void);
void link_read(void);
void link_close(const char *why);
bool link_has_message(void);
message link_next(void);
int link_patience(bool reads);
void link_answer(const char *format, ...) __attribute__((format(printf, 1, 2)));

/* Says a sentence to the operator, in the host's log and on standard error. */
void tell(const char *format, ...) __attribute__((format(printf, 1, 2)));

/* ---- question.c: questions to the operator */

typedef struct {
  uint32_t id, least, most; /* the answer is a number of pages from `least` to `most` */
  char about[400];          /* the job, and what happened */
} question;

void question_ask(int state, const char *folder, const question *q);
bool question_answered(int state, const question *q, uint32_t *pages);
void question_close(int state, uint32_t id);
int question_fd(void);
int answer_command(int count, char **words);

/* ---- options.c */

typedef struct {
  paper paper;
  const char *table;
  const char *user, *format; /* CUPS */
  uint32_t finish;           /* seconds that CUPS may take for a page in work when the host asks for its job's count */
  const char *socket, *folder, *machine;
} options;

options options_read(int count, char **words, bool cups);

/* ---- serve.c */

int serve(const options *o, int state);

#endif
