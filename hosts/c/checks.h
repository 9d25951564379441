/* What a test program writes for each thing that it checks. */
#ifndef CHECKS_H
#define CHECKS_H

/* Writes a line: ok or FAILED, and what was checked. */
void check(int good, const char *what);

/* The exit status of the program: 0 if nothing has failed. */
int exit_status(void);

#endif
