/* Tests the call for C: the examples, each refusal, and so many random and mutated files. Each file stands right before a page
 * that may not be read, so that a read past its end stops the program, in code that no sanitizer watches too. */
#include "colvaje.h"

#include <stdio.h>
#include <stdlib.h>
#include <string.h>
#include <sys/mman.h>
#include <unistd.h>

enum { RECORDS = 400, ROOM = 8 * RECORDS };

typedef struct {
    uint8_t bytes[ROOM];
    size_t length;
} File;

static uint8_t *end_of[2];
static uint64_t seed = 88172645463325252u;
static int failures;

/* Two ranges that end where nothing may be read. */
static void guard(void)
{
    size_t page = (size_t)sysconf(_SC_PAGESIZE);
    for (int i = 0; i < 2; i++) {
        size_t size = (ROOM / page + 1) * page;
        uint8_t *at = mmap(NULL, size + page, PROT_READ | PROT_WRITE, MAP_PRIVATE | MAP_ANONYMOUS, -1, 0);
        if (at == MAP_FAILED || mprotect(at + size, page, PROT_NONE) != 0) {
            perror("guard");
            exit(2);
        }
        end_of[i] = at + size;
    }
}

static uint32_t ask(uint32_t letters, const File *first, const File *second, uint32_t p, uint32_t q)
{
    uint8_t *a = end_of[0] - first->length, *b = end_of[1] - second->length;
    memcpy(a, first->bytes, first->length);
    memcpy(b, second->bytes, second->length);
    uint32_t answer = colvaje_contain(letters, a, first->length, b, second->length, p, q);
    if (memcmp(a, first->bytes, first->length) != 0 || memcmp(b, second->bytes, second->length) != 0) {
        puts("FAILED: a file was changed");
        failures++;
    }
    return answer;
}

static int lawful(uint32_t answer)
{
    uint32_t draft = answer / 1000, number = answer % 1000 - 100;
    if (answer <= 1)
        return 1;
    if (answer % 1000 < 100 || draft > 2)
        return 0;
    return draft == 0 ? number == 14 || number == 15 : (number >= 1 && number <= 12) || number == 16 || number == 99;
}

static void expect(const char *what, uint32_t answer, uint32_t wanted)
{
    if (answer != wanted) {
        printf("FAILED: %s: %u, and not %u\n", what, answer, wanted);
        failures++;
    }
}

static uint32_t below(uint32_t n)
{
    seed ^= seed << 13;
    seed ^= seed >> 7;
    seed ^= seed << 17;
    return (uint32_t)((seed >> 20) % n);
}

static void put(File *file, uint8_t kind, uint8_t letter, uint32_t n, uint32_t m)
{
    if (file->length + 8 > ROOM)
        return;
    uint8_t bytes[8] = {kind, letter, (uint8_t)n, (uint8_t)(n >> 8), (uint8_t)m, (uint8_t)(m >> 8), 0, 0};
    memcpy(file->bytes + file->length, bytes, 8);
    file->length += 8;
}

static File load(const char *path)
{
    File file = {{0}, 0};
    FILE *in = fopen(path, "rb");
    if (in == NULL) {
        perror(path);
        exit(2);
    }
    file.length = fread(file.bytes, 1, ROOM, in);
    fclose(in);
    return file;
}

/* One state, which every letter leads to itself, and so many nodes. */
static File steady(uint8_t letters, uint32_t nodes)
{
    File file = {{0}, 0};
    put(&file, 1, 0, 0, 0);
    for (uint32_t i = 0; i < nodes; i++)
        put(&file, 2, 0, 0, 0);
    for (uint8_t letter = 0; letter < letters; letter++)
        put(&file, 5, letter, 0, 0);
    return file;
}

/* The steady draft of one letter, and one record more, in both places. */
static void fault(uint32_t number, uint8_t kind, uint8_t letter, uint32_t n, uint32_t m)
{
    char what[40];
    File good = steady(1, 1), bad = good;
    put(&bad, kind, letter, n, m);
    snprintf(what, sizeof what, "number %u", number);
    expect(what, ask(1, &bad, &good, 0, 0), 1100 + number);
    expect(what, ask(1, &good, &bad, 0, 0), 2100 + number);
}

static void refusals(void)
{
    File good = steady(1, 1), two = steady(2, 1), none = {{0}, 0}, odd = good, lacking = good, rising = good, full = none, noded = steady(1, 128);
    odd.length -= 1;
    put(&lacking, 1, 0, 0, 0);
    put(&rising, 1, 0, 1, 0);
    put(&rising, 2, 0, 1, 0);
    put(&rising, 5, 0, 0, 1);
    put(&rising, 5, 0, 1, 1);
    for (int i = 0; i < 33; i++)
        put(&full, 1, 0, 0, 0);
    expect("no letters", ask(0, &odd, &good, 0, 0), 1101);
    expect("17 letters", ask(17, &good, &good, 0, 0), 1101);
    fault(2, 1, 0, 1000, 0);
    expect("33 states", ask(1, &full, &good, 0, 0), 1103);
    expect("33 states", ask(1, &good, &full, 0, 0), 2103);
    fault(4, 2, 0, 1, 0);
    put(&noded, 2, 0, 0, 0);
    expect("129 nodes", ask(1, &noded, &good, 0, 0), 1105);
    expect("129 nodes", ask(1, &good, &noded, 0, 0), 2105);
    fault(6, 3, 0, 0, 1);
    fault(7, 5, 1, 0, 0);
    expect("length", ask(1, &odd, &odd, 0, 0), 1109);
    expect("length", ask(1, &good, &odd, 0, 0), 2109);
    fault(10, 8, 0, 0, 0);
    fault(11, 7, 1, 0, 0);
    File top = good;
    put(&top, 6, 0, 0, 999);
    put(&top, 7, 0, 0, 0);
    expect("priority 999", ask(1, &top, &good, 0, 0), 1108);
    expect("priority 999", ask(1, &good, &top, 0, 0), 2108);
    expect("incomplete", ask(1, &lacking, &lacking, 9, 9), 1112);
    expect("incomplete", ask(1, &good, &lacking, 9, 9), 2112);
    expect("letters", ask(2, &two, &two, 9, 9), 1104);
    expect("no such state", ask(1, &none, &good, 0, 0), 1104);
    expect("no such state", ask(1, &good, &none, 0, 0), 2104);
    expect("no such state", ask(1, &good, &good, 0, UINT32_MAX), 2104);
    expect("not stratified", ask(1, &rising, &rising, 0, 0), 1116);
    expect("not stratified", ask(1, &good, &rising, 0, 0), 2116);
    File broad = steady(1, 64), tall = steady(1, 63), wide = steady(1, 65);
    expect("4,097 vertices", ask(1, &broad, &broad, 0, 0), 114);
    expect("4,096 vertices", ask(1, &tall, &wide, 0, 0), 1);
}

/* A draft of a few states, with all rules, mostly stratified. */
static File random_draft(uint32_t letters)
{
    File file = {{0}, 0};
    uint32_t states = 1 + below(4), nodes = states;
    for (uint32_t q = 0; q < states; q++)
        put(&file, 1, 0, below(8) == 0 ? below(4) : 5, 0);
    for (uint32_t q = 0; q < states; q++)
        put(&file, 2, 0, q, 0);
    for (uint32_t more = below(6); more > 0; more--, nodes++)
        put(&file, (uint8_t)(3 + below(2)), 0, below(nodes), below(nodes));
    for (uint32_t q = 0; q < states; q++)
        for (uint32_t letter = 0; letter < letters; letter++)
            put(&file, 5, (uint8_t)letter, q, below(nodes));
    if (below(4) == 0)
        put(&file, 6, 0, below(states), below(7));
    if (below(4) == 0)
        put(&file, 7, 0, 0, 0);
    return file;
}

static void mutate(File *file)
{
    if (file->length == 0 || below(3) == 0) {
        file->length = below(ROOM);
        for (size_t i = 0; i < file->length; i++)
            file->bytes[i] = (uint8_t)below(below(2) ? 8 : 256);
        return;
    }
    for (uint32_t n = 1 + below(3); n > 0; n--)
        file->bytes[below((uint32_t)file->length)] = (uint8_t)below(256);
    if (below(4) == 0)
        file->length -= below((uint32_t)file->length + 1);
}

static void random_files(unsigned long count)
{
    unsigned long seen[2] = {0, 0};
    for (unsigned long i = 0; i < count; i++) {
        uint32_t letters = 1 + below(3);
        File first = random_draft(letters), second = random_draft(letters);
        if (below(3) == 0)
            mutate(&first);
        if (below(3) == 0)
            mutate(&second);
        if (below(50) == 0)
            letters = below(20);
        uint32_t answer = ask(letters, &first, &second, below(4), below(4));
        if (answer <= 1)
            seen[answer]++;
        if (!lawful(answer)) {
            printf("FAILED: unlawful answer %u at file %lu\n", answer, i);
            failures++;
        }
    }
    printf("%lu pairs of files, %lu contained, %lu not shown\n", count, seen[1], seen[0]);
}

int main(int argc, char **argv)
{
    if (argc != 4) {
        fprintf(stderr, "usage: %s MAILBOX RULE COUNT\n", argv[0]);
        return 2;
    }
    guard();
    File mailbox = load(argv[1]), rule = load(argv[2]);
    expect("R in W", ask(2, &mailbox, &rule, 0, 0), 1);
    expect("W in R", ask(2, &rule, &mailbox, 0, 0), 0);
    refusals();
    random_files(strtoul(argv[3], NULL, 10));
    printf("host: %d failed\n", failures);
    return failures != 0;
}
