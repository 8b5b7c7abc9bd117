/* Checks the lines of standard input, and prints for each its number and its first 40 bytes.
   The number is 0 for a call, and else the refusal's number times 10,000 and the place of the
   byte or field at fault. */
#define _POSIX_C_SOURCE 200809L
#include <inttypes.h>
#include <stdint.h>
#include <stdio.h>
#include <stdlib.h>

/* The library's function: a slice of bytes is passed as a pointer and a length. */
uint32_t line_check(const uint8_t *bytes, size_t length);

int main(void)
{
    char *line = NULL;
    size_t room = 0;
    ssize_t length;
    while ((length = getline(&line, &room, stdin)) >= 0) {
        if (length > 0 && line[length - 1] == '\n')
            length--;
        printf("%5" PRIu32 "  %.*s\n", line_check((const uint8_t *)line, (size_t)length), length < 40 ? (int)length : 40, line);
    }
    free(line);
    return ferror(stdin) ? 1 : 0;
}
