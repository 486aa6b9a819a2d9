/* Stands in for the C library's header, which the Rattle kit does not have: what programs/salvage.c uses, with the number
 * of Linux on x86-64. */
#pragma once
#define SIGALRM 14
typedef int sig_atomic_t;
void (*signal(int number, void (*handler)(int)))(int);
