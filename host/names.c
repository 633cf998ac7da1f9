#define _GNU_SOURCE
#include "names.h"

#include <dirent.h>
#include <errno.h>
#include <fcntl.h>
#include <stdlib.h>
#include <string.h>
#include <unistd.h>

#include "katchidul.h"
#include "say.h"

static DIR *open_names(int spool, const char *folder) {
  int file = TEMP_FAILURE_RETRY(openat(spool, folder, O_RDONLY | O_DIRECTORY | O_CLOEXEC));
  DIR *list = file < 0 ? NULL : fdopendir(file);
  if (list == NULL) stop(folder, strerror(errno));
  return list;
}

/* readdir returns NULL at the end of a folder and at an error; only errno tells which. */
static struct dirent *next_entry(DIR *list, const char *folder) {
  struct dirent *entry;
  do errno = 0, entry = readdir(list);
  while (entry == NULL && errno == EINTR);
  if (entry == NULL && errno != 0) stop(folder, strerror(errno));
  return entry;
}

void each_name(int spool, const char *folder, void (*visit)(void *with, const char *name), void *with) {
  DIR *list = open_names(spool, folder);
  for (struct dirent *entry; (entry = next_entry(list, folder)) != NULL;)
    if (entry->d_name[0] != '.') visit(with, entry->d_name);
  closedir(list);
}

static void append(void *list, const char *name) {
  names *n = list;
  if (n->count == n->room) {
    n->room = 2 * n->room + 16;
    n->names = realloc(n->names, n->room * sizeof *n->names);
  }
  char *kept = n->names == NULL ? NULL : strdup(name);
  if (kept == NULL) stop("the list of names", strerror(ENOMEM));
  n->names[n->count++] = kept;
}

static int compare(const void *a, const void *b) { return strcmp(*(char *const *)a, *(char *const *)b); }

void names_clear(names *n) {
  while (n->count > 0) free(n->names[--n->count]);
  n->next = 0;
}

void names_read(names *n, int spool, const char *folder) {
  names_clear(n);
  each_name(spool, folder, append, n);
  if (n->count > 0) qsort(n->names, n->count, sizeof *n->names, compare);
}

const char *names_front(const names *n) { return n->next < n->count ? n->names[n->next] : NULL; }

const char *names_take(names *n) { return n->next < n->count ? n->names[n->next++] : NULL; }

bool names_add(names *n, const char *name) {
  for (size_t i = 0; i < n->count; i++)
    if (strcmp(n->names[i], name) == 0) return false;
  append(n, name);
  return true;
}

uint32_t id_of(const char *name) {
  if (name[0] < '1' || name[0] > '9' || strlen(name) > 5 || strspn(name, "0123456789") != strlen(name)) return 0;
  uint32_t id = (uint32_t)strtoul(name, NULL, 10);
  return id <= KATCHIDUL_ID_MAX ? id : 0;
}
