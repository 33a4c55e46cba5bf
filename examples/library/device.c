/*
 * A unit test: what a device has written, as a dump of 16-bit words, against the reference of the same input.
 *
 *     cc -I build/library examples/library/device.c build/library/libtozbirem.a -o device
 *     ./device examples/designed/script.txt examples/designed/in.raw examples/designed/expected.raw
 *
 * The last file is the dump. It ends with 0 where all samples agree, and else names the first that does not.
 */
#include "tozbirem.h"

#include <stdio.h>
#include <stdlib.h>

/* A whole file, with a zero after it; NULL where it cannot be read. */
static char *read_file(const char *path, size_t *length)
{
    FILE *file = fopen(path, "rb");
    char *bytes = NULL, *more;
    size_t room = 0, count = 0, got = 1;
    *length = 0;
    if (!file) return NULL;
    while (got && count + 1 >= room) {
        room = 2 * room + 4096;
        more = (char *)realloc(bytes, room);
        if (!more) break;
        bytes = more;
        got = fread(bytes + count, 1, room - count - 1, file);
        count += got;
    }
    fclose(file);
    if (bytes) bytes[count] = 0;
    *length = count;
    return bytes;
}

/* The place of the first sample that differs, or -1. */
static long differs(const int16_t *reference, const int16_t *dump, size_t samples)
{
    for (size_t i = 0; i < samples; i++)
        if (reference[i] != dump[i]) return (long)i;
    return -1;
}

/* Prints the result of the test, and tells whether it has failed. */
static int judge(const char *output, size_t length, const char *dump, size_t dumped)
{
    size_t common = (length < dumped ? length : dumped) / 2;
    const int16_t *reference = (const int16_t *)(const void *)output, *words = (const int16_t *)(const void *)dump;
    long place = differs(reference, words, common);
    if (place >= 0) return printf("sample %ld: wanted %d, found %d\n", place, reference[place], words[place]), 1;
    if (length != dumped) return printf("wanted %zu samples, found %zu\n", length / 2, dumped / 2), 1;
    return printf("same: %zu samples\n", common), 0;
}

int main(int count, char **words)
{
    enum { MOST = 1 << 24 };
    const char *run = "run script in out";
    struct tozbirem_lengths lengths;
    char report[4096];
    size_t sizes[3];
    char *files[3];

    if (count != 4) return fprintf(stderr, "device SCRIPT IN DUMP\n"), 2;
    for (int i = 0; i < 3; i++)
        if (!(files[i] = read_file(words[i + 1], &sizes[i]))) return fprintf(stderr, "not read: %s\n", words[i + 1]), 2;
    char *output = (char *)malloc(MOST);
    if (!output) return 2;
    uint32_t status = tozbirem_program(run, strlen(run), files[0], sizes[0], files[1], sizes[1], files[2], sizes[2],
                                       output, MOST, report, sizeof report, &lengths);
    int failed = 2;
    if (status == 0)
        failed = judge(output, (size_t)lengths.output, files[2], sizes[2]);
    else
        printf("%.*s", (int)lengths.report, report);
    for (int i = 0; i < 3; i++) free(files[i]);
    free(output);
    return failed;
}
