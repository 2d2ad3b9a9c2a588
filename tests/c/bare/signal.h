/* What tests/c uses of <signal.h>, as Linux on x86-64 numbers it: see stddef.h. */
#ifndef BARE_SIGNAL_H
#define BARE_SIGNAL_H
#define SIGILL 4
#define SIGSEGV 11
#define SIG_DFL ((void (*)(int))0)
void (*signal(int number, void (*handler)(int)))(int);
#endif
