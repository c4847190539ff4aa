/* Calls the file check and planning across the C boundary, on many files in one process. Standard input is a run of cases: the file's length and
   the buffer's as four big-endian bytes each, then the file. For each case a line: the check's answer, planning's answer, and the buffer as
   planning left it, in hexadecimal. The buffer arrives filled with a byte that no bound of a small circuit begins with, between guard bytes; a
   guard byte that has changed, or a byte of the file, ends the run with status 1. An empty run of bytes is lent as a null pointer. */
#include <stdio.h>
#include <stdlib.h>
#include <string.h>

#include "olwyddreg.h"

enum { GUARD = 64, GUARD_BYTE = 0x5A, FOUND_BYTE = 0xA5 };

static int read_length(size_t *length)
{
    uint8_t bytes[4];
    if (fread(bytes, 1, 4, stdin) != 4)
        return 0;
    *length = ((size_t)bytes[0] << 24) | ((size_t)bytes[1] << 16) | ((size_t)bytes[2] << 8) | bytes[3];
    return 1;
}

static uint8_t *guarded(size_t length, int content)
{
    uint8_t *block = malloc(length + 2 * GUARD);
    if (block == NULL)
        exit(2);
    memset(block, GUARD_BYTE, length + 2 * GUARD);
    memset(block + GUARD, content, length);
    return block;
}

static int guards_stand(const uint8_t *block, size_t length)
{
    for (size_t i = 0; i < GUARD; i++)
        if (block[i] != GUARD_BYTE || block[GUARD + length + i] != GUARD_BYTE)
            return 0;
    return 1;
}

static int one_case(size_t file_length, size_t bounds_length)
{
    uint8_t *block = guarded(bounds_length, FOUND_BYTE);
    uint8_t *bounds = bounds_length ? block + GUARD : NULL;
    uint8_t *file = file_length ? malloc(file_length) : NULL;
    uint8_t *copy = file_length ? malloc(file_length) : NULL;
    if (file_length && (file == NULL || copy == NULL || fread(file, 1, file_length, stdin) != file_length))
        return 2;
    if (file_length)
        memcpy(copy, file, file_length);
    printf("%llu ", (unsigned long long)gat_check(file, file_length));
    printf("%llu ", (unsigned long long)gat_plan(file, file_length, bounds, bounds_length));
    for (size_t i = 0; i < bounds_length; i++)
        printf("%02x", bounds[i]);
    printf("\n");
    int good = guards_stand(block, bounds_length) && (file_length == 0 || memcmp(copy, file, file_length) == 0);
    free(block);
    free(file);
    free(copy);
    return good ? 0 : 1;
}

int main(void)
{
    size_t file_length, bounds_length;
    while (read_length(&file_length) && read_length(&bounds_length)) {
        int status = one_case(file_length, bounds_length);
        if (status != 0)
            return status;
    }
    return 0;
}
