/* Stands in for the C library's header, which the Rattle kit does not have: what the example and programs/salvage.c use. */
#pragma once
int printf(const char *format, ...);
int dprintf(int file, const char *format, ...);
int fflush(void *stream);
