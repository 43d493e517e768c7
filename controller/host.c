/*
 * The driver on the host, with the same module compiled for it: what it prints and keeps is what the board has to.
 */
#include <stdio.h>
#include <stdlib.h>

#include "machine.h"

static FILE *answers;

static void stop(const char *what)
{
    perror(what);
    exit(2);
}

size_t read_list(uint8_t *room)
{
    FILE *list = fopen("list", "rb");
    if (list == NULL)
        stop("list");
    size_t len = fread(room, 1, LIST_ROOM, list);
    fclose(list);
    return len < LIST_ROOM ? len : 0;
}

void print(const void *bytes, size_t len)
{
    if (fwrite(bytes, 1, len, stdout) != len)
        stop("standard output");
}

void keep(const void *bytes, size_t len)
{
    if (fwrite(bytes, 1, len, answers) != len)
        stop("answers");
}

int main(void)
{
    answers = fopen("answers", "wb");
    if (answers == NULL)
        stop("answers");
    int status = drive();
    if (fclose(answers) != 0 || fflush(stdout) != 0)
        stop("answers");
    return status;
}
