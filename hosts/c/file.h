/* Whole files: read at once, and replaced so that a kill or a power cut leaves the old one or the new one. */
#ifndef FILE_H
#define FILE_H

#include <stddef.h>

/* Each gives 1, or 0 with errno set. */

/* Reads up to `room` bytes of a file, or of standard input where the name is NULL; what is left of it is not read. */
int file_read(const char *name, unsigned char *bytes, size_t room, size_t *len);

/* Puts the bytes in the place of the file, by way of a new file beside it; a pipe or a device is written to as it is. */
int file_replace(const char *name, const unsigned char *bytes, size_t len);

/* Removes the file and what a kill left of a new one beside it. That neither is there is no fault. */
int file_remove(const char *name);

/* The name of that new file, to be freed; NULL where there is no room for it. */
char *file_new_name(const char *name);

/* Whether there is a file of that name, and it is no pipe, folder or device: only then reading it waits for nobody. */
int file_is_regular(const char *name);

/* Writes the bytes to standard output. */
int file_print(const unsigned char *bytes, size_t len);

#endif
