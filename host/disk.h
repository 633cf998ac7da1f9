/* What lasts on the disk. If a write, a flush or a rename fails because of the disk, the host ends. Names are paths from the spool on. */
#ifndef DISK_H
#define DISK_H

#include <limits.h>
#include <stdbool.h>
#include <stddef.h>

#define PATH_BYTES (NAME_MAX + 32)

typedef struct {
  char text[PATH_BYTES];
} path;

__attribute__((format(printf, 1, 2))) path path_of(const char *format, ...);

/* Makes a folder; false if the name is taken. The name lasts only after the folder that it is in is flushed. */
bool make_folder(int spool, const char *name);

/* Flushes a folder's names. */
void flush_folder(int spool, const char *name);

/* Replaces a file's bytes at once: it has all of the old ones or all of the new ones. The new ones last when this returns. */
void write_lasting(int spool, const char *folder, const char *name, const void *bytes, size_t length);

/* Moves a file or a folder, and never replaces one. If it returns 0, the move lasts. Else nothing was moved, and it returns why: ENOENT
   (the file is gone), EEXIST (the new name is taken), EACCES or EPERM. */
int move_lasting(int spool, const char *from_folder, const char *from, const char *to_folder, const char *to);

/* Removes a file, and makes that last. A file that is gone already is no error. */
void remove_lasting(int spool, const char *folder, const char *name);

/* Reads a regular file, without following a link and without waiting. Returns 0 or why it could not be read: an errno, or NOT_REGULAR.
   `length` is the file's length, also if it is more than `size`; the bytes after it are 0. With `flush` its bytes last afterwards. */
enum { NOT_REGULAR = -1 };
int read_file(int spool, const char *name, bool flush, void *bytes, size_t size, size_t *length);

/* Whether a regular file has this name. */
bool is_regular(int spool, const char *name);

/* Why a file could not be read, in words. */
const char *trouble(int why);

#endif
