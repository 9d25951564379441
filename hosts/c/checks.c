#include "checks.h"

#include <stdio.h>

static int failures;

void check(int good, const char *what)
{
    printf("%s %s\n", good ? "ok" : "FAILED", what);
    failures += !good;
}

int exit_status(void)
{
    return failures != 0;
}
