/* Katchidul: the calls for a host in C or C++, on x86-64 Linux. A host links libkatchidul.so or libkatchidul.a. docs/HOST.md has complete
   hosts. docs/ORDERS.md, or katchidul-order(5), has the bytes of an order.

   Each call returns a struct by value. `number` is 0 if the call succeeds. Otherwise it is the refusal's number, `place` says where, and
   every other field is 0. (A print queue is handed back as it was. A turn refuses nothing and has no number.) A call takes any bytes, and
   every call returns.

   number  name                         in the words of its sentence                           place
   0                                    nothing is refused                                     0
   1       KATCHIDUL_FIELD_CUT          over 1,024 bytes, or cut in the field at byte          the field's offset, or 0
   2       KATCHIDUL_FIELD_UNKNOWN      unknown tag or wrong length in the field at byte       the field's offset
   3       KATCHIDUL_FIELD_AGAIN        a tag stands a second time in the field at byte        the field's offset
   4       KATCHIDUL_TAG_MISSING        the order lacks a field:                               the tag
   5       KATCHIDUL_OUT_OF_RANGE       a value is out of range, or the month lacks the day:   the tag
   6       KATCHIDUL_NO_TRANSIT         the sun has no transit (day 0 is the row's date), day  the day: 0, 1 or 2
   7       KATCHIDUL_NO_SUNRISE         the sun does not rise (day 0 is the row's date), day   the day
   8       KATCHIDUL_NO_SUNSET          the sun does not set (day 0 is the row's date), day    the day
   9       KATCHIDUL_BUFFER_SHORT       a lent buffer is too short, place                      0
   10      KATCHIDUL_INSTANT_BEYOND     an instant is out of range, place                      0
   11      KATCHIDUL_NONE_IN_FORCE      no prayer is in force, place                           0
   12      KATCHIDUL_LOG_SECOND_SHORT   the log's second buffer is too short, page or count    the record's page; at a restart the count
   13      KATCHIDUL_LOG_OUT_OF_TURN    a record of the log is out of turn, page               the record's page
   14      KATCHIDUL_LOG_COUNT_OUTSIDE  the embosser's count does not fit the log, count       the count
   15      KATCHIDUL_BOTH_FORMS         a coordinate is given in both forms:                   the tag: 18 or 19
   16      KATCHIDUL_QUEUE_FULL         the print queue is full, job id                        the job's id
   17      KATCHIDUL_JOB_UNFIT          the job's id or its pages are not allowed, job id      the job's id
   18      KATCHIDUL_NOT_FIRST_OF_RAMADAN  the sheet does not begin on the 1st of Ramadan:     2, the tag of the date

   More about some of them. 5: a row or a page that the order lacks, and a row that the page lacks, have place 3, the tag of the rows; a
   number that has no sentence, and bytes that are no sentence, have place 0. 9: a row buffer has fewer than 119 bytes, or 131 for a Ramadan
   sheet; a cell buffer or a page's scratch has fewer than 39; a sentence's buffer is shorter than the sentence; a job log's buffer is
   shorter than the bytes that it is said to hold. 10: the seconds are beyond 10^12 either way, or the nanoseconds are over 999,999,999. 11:
   only katchidul_next_at and katchidul_remaining_at refuse by it; katchidul_prayer_at returns KATCHIDUL_PRAYER_NONE. 13 and 14: see the job
   log below. 16: 16 jobs wait. 17: the id is 0, over 65,535 or that of a job that waits, or the pages are not 1 to 16.
   katchidul_write_sentence puts a refusal in words.

   The order of the checks. First a lent buffer (9) and an instant (10). Then the order (1 to 4, 15, then 5, then 18), a Ramadan sheet's
   row buffer of 119 to 130 bytes (9), the row or the page (5, place 3), the day (6 to 8), and 11. A job log is checked for 9, then 13, 14
   and 12; a job for 17, then 16; a sentence to be written for 5, then 9.

   The host's memory. A call changes no byte of the order, keeps nothing of what it is lent, allocates nothing and has no state. Calls may
   run on several threads at once, also on the same order, as long as nobody writes to the lent bytes meanwhile. A null pointer is allowed
   only with length 0. It is an empty order (4, place 1), an empty buffer (9), an empty log or an empty sentence (5, place 0). A call takes
   less than 4,096 bytes of stack (tests/host/run prints how many).

   The floating-point environment. The answers are proved for the environment that a C program starts with: rounding to nearest,
   subnormal numbers kept, no exception trapped. In another one they can be wrong. A host that is linked with -ffast-math starts with
   subnormal numbers flushed to zero: it accepts a Fajr angle of -5e-324, which is otherwise refused by 5, place 12. Each thread has an
   environment of its own. katchidul_environment_is_default() returns whether that of the calling thread is right. */
#ifndef KATCHIDUL_H
#define KATCHIDUL_H

#include <stddef.h>
#include <stdint.h>

#ifdef __cplusplus
extern "C" {
#endif

/* The version of this header; katchidul_version() returns that of the library. The major number is raised if a program that was built with
   the header before could go wrong: a call, a struct, a limit or the meaning of a number has changed or is gone. It is the number in the
   name of the shared object. The minor number is raised if something is added, and goes back to 0 with a new major number. So a host works
   with a library that has the same major number, and the same minor number or a higher one. */
#define KATCHIDUL_VERSION_MAJOR 1
#define KATCHIDUL_VERSION_MINOR 0
#define KATCHIDUL_VERSION (KATCHIDUL_VERSION_MAJOR * 65536u + KATCHIDUL_VERSION_MINOR)

#define KATCHIDUL_ORDER_MAX 1024 /* bytes of an order */
#define KATCHIDUL_WRITTEN_MAX 157 /* bytes of an order that katchidul_write_order writes */
#define KATCHIDUL_TOWN_MAX 40    /* bytes of a town's name */
#define KATCHIDUL_ROWS_MAX 400   /* rows of an order */
#define KATCHIDUL_ROW_CELLS 39   /* of a row, a byte each; the least size of a cell buffer or a page's scratch */
#define KATCHIDUL_PAGE_ROWS 25   /* of a full page */
#define KATCHIDUL_PAGE_CELLS 975 /* of a full page */
#define KATCHIDUL_ROW_BYTES 119  /* of a row's line with its newline; the least size of a row buffer */
#define KATCHIDUL_RAMADAN_ROW_BYTES 131 /* of a Ramadan sheet's row, which has imsak; a row buffer of this size is enough for every order */
#define KATCHIDUL_RAMADAN_ROWS 30 /* of a Ramadan sheet */
#define KATCHIDUL_IMSAK_MAX 30   /* minutes from imsak to Fajr */
#define KATCHIDUL_SENTENCE_MAX 100 /* bytes of a sentence */
#define KATCHIDUL_TIME_COUNT 9
#define KATCHIDUL_MINUTES_COUNT 6
#define KATCHIDUL_SECONDS_MAX INT64_C(1000000000000) /* of an instant, either way */
#define KATCHIDUL_NANOSECONDS_MAX 999999999
#define KATCHIDUL_JOBS_MAX 16    /* jobs of a print queue */
#define KATCHIDUL_ID_MAX 65535   /* of a job */
#define KATCHIDUL_PAGES_MAX 16   /* pages of a job */
#define KATCHIDUL_RECORD_BYTES 5 /* of a job log's record */
#define KATCHIDUL_PAGE_MAX 65535 /* the last page that a record can name */
/* Bytes of a buffer that is long enough to compact a job log with at most `open` pages that are sent and not done. */
#define KATCHIDUL_LOG_ROOM(open) (KATCHIDUL_RECORD_BYTES * ((size_t)(open) + 2))

/* The values of `number`. */
enum katchidul_refusal {
  KATCHIDUL_FIELD_CUT = 1,
  KATCHIDUL_FIELD_UNKNOWN = 2,
  KATCHIDUL_FIELD_AGAIN = 3,
  KATCHIDUL_TAG_MISSING = 4,
  KATCHIDUL_OUT_OF_RANGE = 5,
  KATCHIDUL_NO_TRANSIT = 6,
  KATCHIDUL_NO_SUNRISE = 7,
  KATCHIDUL_NO_SUNSET = 8,
  KATCHIDUL_BUFFER_SHORT = 9,
  KATCHIDUL_INSTANT_BEYOND = 10,
  KATCHIDUL_NONE_IN_FORCE = 11,
  KATCHIDUL_LOG_SECOND_SHORT = 12,
  KATCHIDUL_LOG_OUT_OF_TURN = 13,
  KATCHIDUL_LOG_COUNT_OUTSIDE = 14,
  KATCHIDUL_BOTH_FORMS = 15,
  KATCHIDUL_QUEUE_FULL = 16,
  KATCHIDUL_JOB_UNFIT = 17,
  KATCHIDUL_NOT_FIRST_OF_RAMADAN = 18
};

/* The first byte of a job log's record. An append takes the first two. */
enum katchidul_record {
  KATCHIDUL_RECORD_SENT = 1,
  KATCHIDUL_RECORD_DONE = 2,
  KATCHIDUL_RECORD_FINISHED = 3 /* every page up to this one is done: compaction's first record */
};

/* The values of `prayer`. */
enum katchidul_prayer_number {
  KATCHIDUL_PRAYER_NONE = 0,
  KATCHIDUL_PRAYER_FAJR = 1,
  KATCHIDUL_PRAYER_SUNRISE = 2,
  KATCHIDUL_PRAYER_DHUHR = 3,
  KATCHIDUL_PRAYER_ASR = 4,
  KATCHIDUL_PRAYER_MAGHRIB = 5,
  KATCHIDUL_PRAYER_ISHA = 6,
  KATCHIDUL_PRAYER_QIYAM = 7,
  KATCHIDUL_PRAYER_FAJR_TOMORROW = 8
};

/* The index of each time in `times`. The middle of the night is a time and no prayer. */
enum katchidul_time_index {
  KATCHIDUL_TIME_FAJR = 0,
  KATCHIDUL_TIME_SUNRISE = 1,
  KATCHIDUL_TIME_DHUHR = 2,
  KATCHIDUL_TIME_ASR = 3,
  KATCHIDUL_TIME_MAGHRIB = 4,
  KATCHIDUL_TIME_ISHA = 5,
  KATCHIDUL_TIME_MIDDLE = 6,
  KATCHIDUL_TIME_QIYAM = 7,
  KATCHIDUL_TIME_TOMORROW = 8
};

/* The index of each prayer's own minutes in `minutes`. */
enum katchidul_minutes_index {
  KATCHIDUL_MINUTES_FAJR = 0,
  KATCHIDUL_MINUTES_SUNRISE = 1,
  KATCHIDUL_MINUTES_DHUHR = 2,
  KATCHIDUL_MINUTES_ASR = 3,
  KATCHIDUL_MINUTES_MAGHRIB = 4,
  KATCHIDUL_MINUTES_ISHA = 5
};

/* The values of `method`, `madhab`, `high_latitude_rule`, `rounding`, `shafaq`, `southern` and `carry`. The bytes of an order have the
   same. */
enum katchidul_method {
  KATCHIDUL_METHOD_MUSLIM_WORLD_LEAGUE = 0,
  KATCHIDUL_METHOD_EGYPTIAN = 1,
  KATCHIDUL_METHOD_KARACHI = 2,
  KATCHIDUL_METHOD_UMM_AL_QURA = 3,
  KATCHIDUL_METHOD_DUBAI = 4,
  KATCHIDUL_METHOD_MOONSIGHTING_COMMITTEE = 5,
  KATCHIDUL_METHOD_NORTH_AMERICA = 6,
  KATCHIDUL_METHOD_KUWAIT = 7,
  KATCHIDUL_METHOD_QATAR = 8,
  KATCHIDUL_METHOD_SINGAPORE = 9,
  KATCHIDUL_METHOD_TEHRAN = 10,
  KATCHIDUL_METHOD_TURKEY = 11,
  KATCHIDUL_METHOD_OTHER = 12
};

enum katchidul_madhab { KATCHIDUL_MADHAB_SHAFI = 1, KATCHIDUL_MADHAB_HANAFI = 2 };

enum katchidul_high_latitude_rule {
  KATCHIDUL_HIGH_LATITUDE_RULE_MIDDLE_OF_THE_NIGHT = 0,
  KATCHIDUL_HIGH_LATITUDE_RULE_SEVENTH_OF_THE_NIGHT = 1,
  KATCHIDUL_HIGH_LATITUDE_RULE_TWILIGHT_ANGLE = 2
};

enum katchidul_rounding { KATCHIDUL_ROUNDING_NEAREST = 0, KATCHIDUL_ROUNDING_UP = 1, KATCHIDUL_ROUNDING_NONE = 2 };

enum katchidul_shafaq { KATCHIDUL_SHAFAQ_GENERAL = 0, KATCHIDUL_SHAFAQ_AHMER = 1, KATCHIDUL_SHAFAQ_ABYAD = 2 };

enum katchidul_southern { KATCHIDUL_SOUTHERN_UNREDUCED = 0, KATCHIDUL_SOUTHERN_STARTS_AGAIN = 1 };

enum katchidul_carry { KATCHIDUL_CARRY_STOPS = 0, KATCHIDUL_CARRY_CARRIES = 1 };

/* What an order asks for. A field that the order leaves out has its method's value, or the one in docs/ORDERS.md's table of tags. */
typedef struct katchidul_order {
  uint32_t number, place;
  uint32_t town_at, town_length; /* the part of the order that is the town's name: offset and length in bytes */
  uint32_t year, month, day;     /* the date of row 0 */
  uint32_t rows;                 /* 1 to 400 */
  double latitude, longitude;    /* degrees, in whichever form the order has them */
  double fajr_angle, isha_angle; /* degrees */
  uint32_t method, madhab, high_latitude_rule, rounding, shafaq; /* by their numbers */
  uint32_t isha_interval;        /* minutes */
  int32_t minutes[KATCHIDUL_MINUTES_COUNT]; /* own minutes: fajr, sunrise, dhuhr, asr, maghrib, isha */
  uint32_t carry;                /* an hour number that rounds to hour 24: KATCHIDUL_CARRY_STOPS or KATCHIDUL_CARRY_CARRIES */
  int32_t clock;                 /* minutes from UTC to the clock that the cells show, -840 to 840 */
  uint32_t southern;             /* the season's count in the south: KATCHIDUL_SOUTHERN_UNREDUCED or KATCHIDUL_SOUTHERN_STARTS_AGAIN */
  uint32_t ramadan;              /* 1 if this is a Ramadan sheet, which has imsak; otherwise this and the next two are 0 */
  uint32_t imsak;                /* minutes from imsak to Fajr, 0 to 30: imsak is `times[KATCHIDUL_TIME_FAJR] - 60 * imsak` */
  int32_t shift;                 /* days from the tabular 1 Ramadan to the first day, -1 to 1 */
} katchidul_order;

/* Seconds from 1970-01-01T00:00:00 UTC on: fajr, sunrise, dhuhr, asr, maghrib, isha, middle of the night, qiyam, tomorrow's fajr. A later
   one may be earlier in time. The first six, with their minutes added, are rounded as the order's rounding says: Nearest rounds up from
   second 30, Up rounds to the next minute (from second 0 too), None keeps the seconds. The middle of the night and qiyam are rounded by
   Nearest. Tomorrow's fajr is not rounded. */
typedef struct katchidul_day {
  uint32_t number, place;
  int64_t times[KATCHIDUL_TIME_COUNT];
} katchidul_day;

/* A prayer by its number, KATCHIDUL_PRAYER_NONE to KATCHIDUL_PRAYER_FAJR_TOMORROW. */
typedef struct katchidul_prayer {
  uint32_t number, place, prayer;
} katchidul_prayer;

/* Whole hours, and the rest in minutes, rounded: 3,599 seconds are 0 hours and 60 minutes. Below an hour, half a minute is rounded up: 30
   seconds are a minute. From an hour on, the double (t / 60 / 60 - hours) * 60 is rounded, whose last bit may bring half a minute down:
   3,630 seconds are 1 hour and 0 minutes. */
typedef struct katchidul_remaining {
  uint32_t number, place, hours, minutes;
} katchidul_remaining;

/* What a call that writes into a buffer returns. */
typedef struct katchidul_reply {
  uint32_t number, place;
} katchidul_reply;

/* What writing a sentence or an order returns: `length` is how many bytes were written. */
typedef struct katchidul_written {
  uint32_t number, place, length;
} katchidul_written;

/* What reading a sentence returns: the number and the place of the refusal that it was written for. */
typedef struct katchidul_meaning {
  uint32_t number, place;
  uint32_t of_number, of_place;
} katchidul_meaning;

/* A coordinate as on the map. Sign 1 is south or west. */
typedef struct katchidul_map {
  uint32_t number, place, sign, degrees, minutes, seconds, hundredths;
} katchidul_map;

/* Returns the library's version: KATCHIDUL_VERSION of the header that it was built with. */
uint32_t katchidul_version(void);

/* Reads an order. Refusals 1 to 5, 15 and 18. */
katchidul_order katchidul_read_order(const uint8_t *order, size_t length);

/* Writes an order at the front of a buffer of `size` bytes: every field of `order`, as katchidul_read_order returns it, and the town's
   name, `town_length` bytes at `town`. The fields `number`, `place`, `town_at` and `town_length` of the struct are not looked at. `length`
   is how many bytes the order has, KATCHIDUL_WRITTEN_MAX at most. Latitude and longitude are written as two floats, also if they were read
   as on the map.

   The call refuses what katchidul_read_order would refuse of these bytes, before it looks at the buffer. Then it returns 9, place 0, if the
   buffer is too short. What no order can say is refused by 5, with its tag as place: a number that no choice has, 70,000 rows, -0.0 degrees
   (which would be read as 0.0), or minutes of imsak on a sheet that is not Ramadan's. A refused call changes no byte of the buffer.
   Otherwise the bytes behind the order stay. Reading what was written returns the same struct, but for `town_at`, which is 3. And writing
   what was read gives an order that every call answers as it answers the one that was read. The buffer and the town must not overlap.
   Refusals 2, 5, 9 and 18. */
katchidul_written katchidul_write_order(katchidul_order order, const uint8_t *town, size_t town_length, uint8_t *buffer, size_t size);

/* Returns the nine times of a row's date. Rows count from 0. Refusals 1 to 8, 15 and 18. */
katchidul_day katchidul_work_day(const uint8_t *order, size_t length, uint32_t row);

/* An instant is whole seconds from 1970-01-01T00:00:00 UTC on, rounded down, and nanoseconds, which count forward from there, also before
   1970: half a second before 1970 is -1 and 500,000,000.

   Returns the prayer in force at an instant, by the times of the row's day alone: the last in the list from Fajr to FajrTomorrow whose time
   is less than a second ahead. If there is none it is KATCHIDUL_PRAYER_NONE, which is no refusal. Refusals 1 to 8, 10, 15 and 18. */
katchidul_prayer katchidul_prayer_at(const uint8_t *order, size_t length, uint32_t row, int64_t seconds, uint32_t nanoseconds);

/* Returns the next prayer: the one in the list after the prayer in force at the instant. After FajrTomorrow it is FajrTomorrow itself.
   Refusals 1 to 8, 10, 11, 15 and 18. */
katchidul_prayer katchidul_next_at(const uint8_t *order, size_t length, uint32_t row, int64_t seconds, uint32_t nanoseconds);

/* Returns the time until the next prayer. It is 0 and 0 if the next prayer's time has passed, and so after FajrTomorrow. Refusals 1 to 8,
   10, 11, 15 and 18. */
katchidul_remaining katchidul_remaining_at(const uint8_t *order, size_t length, uint32_t row, int64_t seconds, uint32_t nanoseconds);

/* Writes a row's line at the front of a buffer of `size` bytes, at least KATCHIDUL_ROW_BYTES (9 below that): the row's date, then the nine
   times, each as signed days from that date, T and the UTC time (`+0T05:12:00`), with a blank before each and a newline at the end. A row
   has 119 bytes with its newline, and no zero byte after it. A Ramadan sheet's row has imsak between the date and Fajr, written as a time,
   and so 131 bytes; a shorter buffer is then 9. The buffer's bytes behind the row stay. A refused call changes no byte of the buffer. The
   buffer and the order must not overlap. Refusals 1 to 9, 15 and 18. */
katchidul_reply katchidul_write_row(const uint8_t *order, size_t length, uint32_t row, uint8_t *buffer, size_t size);

/* What a call that writes cells returns: how many rows it wrote, and how many dots they punch. */
typedef struct katchidul_cells {
  uint32_t number, place, rows, dots;
} katchidul_cells;

/* Writes a row in braille at the front of a buffer of `size` bytes, at least KATCHIDUL_ROW_CELLS (9 below that), a byte a cell as the
   embosser takes it: bit 0 is dot 1, bit 5 is dot 6, and the other two bits are 0. A row is 39 cells: the number sign (dots 3456) and two
   digits of the day; then the six times from Fajr to Isha, each a blank, the number sign, and hour and minute as four digits. Digits are
   the letters a to j of the literary code. The day is that of the row's own date. The times are by the order's clock: its `clock` minutes
   are added to the UTC instant, and the seconds are dropped. If the day is refused (6 to 8), its row is the day and 36 blanks, and the call
   is not refused. `rows` is 1. The buffer's bytes behind the cells stay. A refused call changes no byte of the buffer. The buffer and the
   order must not overlap. Refusals 1 to 5, 9, 15 and 18. */
katchidul_cells katchidul_write_cells(const uint8_t *order, size_t length, uint32_t row, uint8_t *buffer, size_t size);

/* Writes rows of a page in braille, one behind another, at the front of a scratch of `size` bytes, at least KATCHIDUL_ROW_CELLS (9 below
   that). It begins at the page's row `first`, counted from 0, and writes the whole rows that fit into the scratch and are left on the page.
   `rows` is how many these are, `dots` is how many dots they punch. Pages count from 1 and have KATCHIDUL_PAGE_ROWS rows; the last one has
   those that are left. So an order has (rows + 24) / 25 pages. A page that the order lacks (page 0 too) and a row that the page lacks (the
   one behind its last too) are 5, place 3. All else is as with katchidul_write_cells.

   A page may be written at once, with KATCHIDUL_PAGE_CELLS bytes, or in pieces of any length: each call begins at `first` plus the `rows`
   of the one before, until one returns 5, place 3. The cells and their order, and the sum of the dots, do not depend on the lengths. Pieces
   cost time: the first row of a call works three suns and each later row one, so a page written row by row costs about twice as much as at
   once (docs/SPEED.md). */
katchidul_cells katchidul_write_page(const uint8_t *order, size_t length, uint32_t page, uint32_t first, uint8_t *scratch, size_t size);

/* The print queue. Jobs wait for the embosser, each with an id and its pages left. Each turn sends one page of the job at the front, so
   that a long job does not hold up the rest. The host keeps the queue: it passes the queue by value and goes on with the one that is
   returned. An empty queue is all zeros: katchidul_queue queue = {0}.

   If a host begins with an empty queue, and each call is on the queue that the last one returned, then: a job with k jobs ahead of it has
   its next page sent at turn k + 1 counted from then, whoever joins meanwhile. It leaves when all its pages are sent. Pages sent plus pages
   left are the pages admitted. There are never more than 16 jobs, no two have one id, and each has 1 to 16 pages left. */
typedef struct katchidul_queue {
  uint32_t jobs;                      /* how many wait */
  uint32_t ids[KATCHIDUL_JOBS_MAX];   /* the front first; behind the jobs are zeros */
  uint32_t pages[KATCHIDUL_JOBS_MAX]; /* the pages left of each */
} katchidul_queue;

/* A refused job leaves the queue as it was. */
typedef struct katchidul_joined {
  uint32_t number, place;
  katchidul_queue queue;
} katchidul_joined;

/* The job whose page is to be sent, and its pages left after that one. If no job waits, they are 0 and 0, and the queue is as it was. */
typedef struct katchidul_turned {
  uint32_t id, pages;
  katchidul_queue queue;
} katchidul_turned;

/* Puts a job at the back: an id from 1 to KATCHIDUL_ID_MAX that no waiting job has, and 1 to KATCHIDUL_PAGES_MAX pages. An id is free again
   when its job has left. Refusals 16 and 17. */
katchidul_joined katchidul_join(katchidul_queue queue, uint32_t id, uint32_t pages);

/* Takes a page from the job at the front. The job then goes to the back if it has pages left, and leaves otherwise. Nothing is refused.

   A queue that no calls return is accepted too. Of more than 16 jobs the first 16 count. A job with 0 pages left sends one and leaves. For
   a job with id 0, `id` is 0 as if no job waited, and `pages` are its pages left: `queue` always shows the difference. */
katchidul_turned katchidul_turn(katchidul_queue queue);

/* The job log: which pages of a job are sent and which are done, so that a page goes out only once, also if an acknowledgement is lost or
   the host crashes. A log is the first `used` bytes of a buffer that the host lends, at first 0 bytes. It has records of five bytes: a tag
   (KATCHIDUL_RECORD_SENT, ..), the length 0, 2, and the page, high byte first. Pages are sent in rising order from 1. A done names the
   lowest page that is sent and not done. A record that is cut at the end is not looked at, and the next append begins in its place.

   A full log (fewer than five bytes behind its last whole record), and every log at a restart, is compacted into the second buffer: one
   finished record (page 0 if none is done), a sent record for each open page (sent and not done), and the new record. The first buffer
   stays as it was, and is the log until the call returns. Then `moved` is 1, and the second buffer is the log. Two buffers of
   KATCHIDUL_LOG_ROOM(n) bytes are never too short while no more than n pages are open.

   The host makes the log's bytes lasting on its disk. Then, in one step, it makes lasting which buffer is the log, and `used`. Only then it
   sends the page. One step is a new file that is flushed and renamed, and its folder flushed; or a write that lasts whole or not at all. In
   the code below a write or a flush that fails ends the host. If it went on, it would send a page that its log does not have.
   `used` cannot be found from the bytes, because old records may be behind the log. A call reads each record of the log once, so a buffer
   much larger than KATCHIDUL_LOG_ROOM costs time.

       katchidul_log a = katchidul_append(buffer[at], SIZE, used, KATCHIDUL_RECORD_SENT, page, buffer[!at], SIZE);
       if (a.number != 0) return a.number;                         // no byte has changed, and the page does not go out
       write_bytes(buffer[at ^= a.moved], used = a.used), flush(); // the log's bytes,
       write_place(at, used), flush();                             // then which buffer is the log, and how many of its bytes,
       send(page);                                                 // and only then the page

   No page is sent while an append is under way. After any failure of host, link or embosser, the host asks how many pages of this job the
   embosser has finished, from 0, and restarts with that count before it appends or sends. The embosser drops what it has not finished, also
   what is still on its way: a page that waits in a spooler and arrives after the count was told would be finished twice. Then the pages
   finished + 1 to sent of the answer go out again, in rising order and without a record. If the embosser serves several jobs, each of them
   restarts. A done is appended only of a page that the embosser has finished, as its acknowledgement or that of a later page tells.

   This needs three things: the host follows these rules, every count is true, and pages are lost only from the end of what was sent. Then
   no finished page is sent again and none is skipped: the embosser finishes 1, 2, 3, .., each once. A crash within a call, or within what
   follows it, is one of these failures: until the place is lasting, the log is what it was. */
typedef struct katchidul_log {
  uint32_t number, place;
  uint32_t moved;          /* 1 if the log is now in the second buffer: after every restart, and after an append that compacted */
  uint32_t finished, sent; /* pages 1 to finished are done, pages 1 to sent are sent, after the call */
  size_t used;             /* the bytes of the log's whole records, in whichever buffer it is: where the next one begins */
} katchidul_log;

/* Reads the log that is the first `used` bytes of a buffer of `size` bytes. It changes no byte, and `moved` is 0. Returns 9, place 0, if
   `used` is over `size`, and 13, with its page as place, for a record out of turn: a sent that does not name the page after the last sent,
   a done that does not name the lowest page sent and not done, a finished record that is not the first, an unknown tag, another length.
   Refusals 9 and 13. */
katchidul_log katchidul_read_log(const uint8_t *log, size_t size, size_t used);

/* Appends a record, KATCHIDUL_RECORD_SENT or KATCHIDUL_RECORD_DONE. In a log that is not full it changes the five bytes behind the last
   whole record, and no byte of the second buffer. A full log is compacted, see above. The log's own records are checked before the new one.
   Returns 13, with the page as place, for a record out of turn, another tag or a page over KATCHIDUL_PAGE_MAX, and 12, with the page as
   place, if the second buffer is too short. The buffers must not overlap. A refused call changes no byte of either. Refusals 9, 12 and 13.
   */
katchidul_log katchidul_append(uint8_t *log, size_t size, size_t used, uint32_t tag, uint32_t page, uint8_t *second, size_t second_size);

/* Restarts with the number of pages that the embosser has finished: compacts the log, with that count as finished, into the second buffer.
   Returns 14 if the count is below the log's finished pages or above its sent ones, and 12 if the second buffer is too short, each with the
   count as place. The first buffer stays as it is. A refused call changes no byte of the second buffer either. The buffers must not
   overlap. Refusals 9 and 12 to 14. */
katchidul_log katchidul_restart(const uint8_t *log, size_t size, size_t used, uint32_t count, uint8_t *second, size_t second_size);

/* Writes a refusal's sentence for the desk at the front of a buffer of `size` bytes: `Refusal 4: the order lacks a field: method, tag 6`.
   `number` and `place` are those that a call returned. Every number of the table above has a sentence for every place, and no two are the
   same. A sentence is printable ASCII, KATCHIDUL_SENTENCE_MAX bytes at most, with no newline and no zero byte after it. The buffer's bytes
   behind it stay. Returns 5, place 0, if the number is not in the table (0 is not), whatever the buffer. Returns 9, place 0, if the buffer
   is shorter than the sentence. A refused call changes no byte of the buffer. Refusals 5 and 9. */
katchidul_written katchidul_write_sentence(uint32_t number, uint32_t place, uint8_t *buffer, size_t size);

/* Reads a sentence back: `of_number` and `of_place` are those that it was written for. Returns 5, place 0, if the bytes are no refusal's
   sentence. */
katchidul_meaning katchidul_read_sentence(const uint8_t *sentence, size_t length);

/* Returns a coordinate as on the map: the hundredth of a second that is nearest to the number's exact value. A half is rounded away from
   zero. Zero has sign 0, also if a number below zero is rounded to it. Returns 5, with place 18 for a latitude and 19 for a longitude, if
   the number is a NaN or is beyond 90 or 180 degrees either way before it is rounded. The five numbers are those of an order's tag 18 or
   19. What was read from such a tag is written back as it was, but a zero always has sign 0. */
katchidul_map katchidul_map_latitude(double degrees);
katchidul_map katchidul_map_longitude(double degrees);

/* Returns 1 if the calling thread's floating-point environment is the one that the answers are proved for, otherwise 0. It reads the
   processor's MXCSR: no subnormal number is taken for zero or made zero, rounding is to nearest, every exception is masked. The six lowest
   bits record past exceptions and change no answer. */
static __inline__ int katchidul_environment_is_default(void) {
  uint32_t control;
  __asm__ volatile("stmxcsr %0" : "=m"(control));
  return (control & 0xffc0u) == 0x1f80u;
}

#ifdef __cplusplus
}
#endif

#endif
