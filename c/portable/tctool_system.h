/* What tctool asks of its system, as portable C: its words, files, and the last error. tctool_system.c has this for POSIX
 * and for Windows. */
#ifndef TCTOOL_SYSTEM_H
#define TCTOOL_SYSTEM_H

#include <stdbool.h>
#include <stddef.h>
#include <stdint.h>

/* The last error, as Linux numbers it: 4 for a call that was interrupted, which is made again; 2, 13, 20, 21, 36 and 40 for a
 * file that is not there, that may not be read, within no directory, that is a directory, whose name is too long, and whose
 * links go round in a circle; 22 for what cannot be asked; and 5 for any other. */
extern uint32_t tctool_error;

/* Copies a word that the program was given, at place 0 the program's name, and returns the number of its octets: -1 where
 * there is no such word, -2 where it does not fit. */
int64_t tctool_word(uint64_t place, unsigned char *to, uint64_t room);

/* Opens a file to be read, with the flags that Linux has, and returns its number, or -1. */
int32_t tctool_open(const char *name, uint32_t flags);

/* Closes a file, and returns 0, or -1. */
int32_t tctool_close(int file);

/* Reads or writes, and returns the number of octets, or -1. */
int64_t tctool_read(int file, unsigned char *to, uint64_t count);
int64_t tctool_write(int file, const unsigned char *from, uint64_t count);

/* Goes to the end of a file, and returns the number of octets before it, or -1. */
int64_t tctool_end(int file);

/* Whether a file is a terminal: 1 or 0. */
int32_t tctool_is_terminal(int file);

/* The program; returns its status. */
int tctool_program(void);

#endif
