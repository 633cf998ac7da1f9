/* The names in a folder, and which of them are ids of jobs. */
#ifndef NAMES_H
#define NAMES_H

#include <stdbool.h>
#include <stddef.h>
#include <stdint.h>

typedef struct {
  char **names;
  size_t count, room;
  size_t next; /* if names are taken from the front: the first that is not taken */
} names;

/* Calls `visit` with each name of a folder but those that begin with a dot. If the folder cannot be read to its end, the host ends. */
void each_name(int spool, const char *folder, void (*visit)(void *with, const char *name), void *with);

/* Reads a folder's names, in the order of their bytes. */
void names_read(names *n, int spool, const char *folder);

/* Takes the first name that is not taken; NULL if there is none. The name is valid until the list is read again. */
const char *names_take(names *n);

/* The name that would be taken, or NULL. */
const char *names_front(const names *n);

void names_clear(names *n);

/* Adds a name; false if the list has it. */
bool names_add(names *n, const char *name);

/* A name as a job's id, 1 to 65,535, or 0. */
uint32_t id_of(const char *name);

#endif
