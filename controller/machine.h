/*
 * What the driver asks of the machine that it runs on: the board (board.c) or the host (host.c). Files lie in the folder that
 * the program is started in.
 */
#ifndef MACHINE_H
#define MACHINE_H

#include <stddef.h>
#include <stdint.h>

enum { LIST_ROOM = 640 * 1024 };

/* Reads the file `list` into a room of LIST_ROOM bytes. Answers how many bytes it has; 0 where there are none or too many. */
size_t read_list(uint8_t *room);

/* Prints bytes on standard output. */
void print(const void *bytes, size_t len);

/* Writes bytes behind those of the file `answers`. */
void keep(const void *bytes, size_t len);

/* The driver. Answers the exit status: 0 where every answer is the recorded one. */
int drive(void);

#endif
