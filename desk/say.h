/* What the console prints. On a terminal a line that is too long for it is broken between two words. */
#ifndef DESK_SAY_H
#define DESK_SAY_H

#include <stddef.h>

/* As printf, and as puts. */
#ifdef __GNUC__
__attribute__((format(printf, 1, 2)))
#endif
int say(const char *format, ...);
int say_line(const char *text);

/* How many letters a line may have. 0, as at first: lines are printed as they are. */
void say_width(size_t columns);
int say_wraps(void);

/* How many lines were printed since the last time this was asked. */
size_t say_lines(void);

#endif
