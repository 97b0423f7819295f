/* check LETTERS FIRST STATE SECOND STATE: is the draft in one file contained in the draft in another? */
#include "colvaje.h"

#include <stdio.h>
#include <stdlib.h>

/* The longest file that is read, in bytes. */
enum { ROOM = 1 << 20 };

static size_t read_file(const char *path, uint8_t *bytes)
{
    FILE *file = fopen(path, "rb");
    if (file == NULL) {
        perror(path);
        exit(2);
    }
    size_t length = fread(bytes, 1, ROOM, file);
    if (ferror(file) || fgetc(file) != EOF) {
        fprintf(stderr, "%s: cannot be read, or is longer than %d bytes\n", path, ROOM);
        exit(2);
    }
    fclose(file);
    return length;
}

static uint32_t number(const char *word)
{
    char *end;
    unsigned long value = strtoul(word, &end, 10);
    if (end == word || *end != '\0' || value > UINT32_MAX) {
        fprintf(stderr, "%s: not a number\n", word);
        exit(2);
    }
    return (uint32_t)value;
}

int main(int argc, char **argv)
{
    static uint8_t first[ROOM], second[ROOM];
    if (argc != 6) {
        fprintf(stderr, "usage: %s LETTERS FIRST STATE SECOND STATE\n", argv[0]);
        return 2;
    }
    size_t first_len = read_file(argv[2], first);
    size_t second_len = read_file(argv[4], second);
    uint32_t answer = colvaje_contain(number(argv[1]), first, first_len, second, second_len, number(argv[3]), number(argv[5]));
    if (answer > 1) {
        fprintf(stderr, "refused: draft %u, number %u\n", answer / 1000, answer % 1000 - 100);
        return 2;
    }
    puts(answer == 1 ? "contained" : "not shown");
    return answer == 1 ? 0 : 1;
}
