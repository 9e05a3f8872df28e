/* The console's colours: 15 bits, five for each of red, green and blue. */
#ifndef CONSOLE_H
#define CONSOLE_H

#include <stddef.h>

/* Reduces `colours` Oklab colours (l, a, b) to those that the console shows, as Oklab again. */
void console_reduce(const float *from, float *to, size_t colours);

#endif
