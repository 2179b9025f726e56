/* The library beside the independent reader. Standard input is what tests/plain's program `answers` tells of files: of each
 * file a line `file .BYTES refusal place sentences sound-end` and further down `tidy refusal place .BYTES`, with the bytes in
 * hexadecimal. Survey and tidy text must be these. */
#define _POSIX_C_SOURCE 200809L
#include "hraunlik.h"
#include <stdio.h>
#include <stdlib.h>
#include <string.h>

struct bytes { uint8_t *at; size_t length; };

static uint32_t tables[HRAUNLIK_TABLES], sheet[HRAUNLIK_SHEET], edges[HRAUNLIK_EDGES];
static uint8_t seen[HRAUNLIK_SEEN];
static int files, wrong;

static struct bytes room_for(size_t length) {
    struct bytes room = {malloc(length + 1), length};
    if (!room.at) exit(2);
    return room;
}

/* The bytes that stand behind a point; *end is where they end. */
static struct bytes decoded(const char *point, char **end) {
    const char *digits = point + 1;
    struct bytes bytes = room_for(strspn(digits, "0123456789abcdef") / 2);
    for (size_t i = 0; i < bytes.length; i++) {
        const char pair[3] = {digits[2 * i], digits[2 * i + 1], 0};
        bytes.at[i] = (uint8_t)strtoul(pair, NULL, 16);
    }
    *end = (char *)digits + 2 * bytes.length;
    return bytes;
}

static uint32_t number(char **text) { return (uint32_t)strtoul(*text, text, 10); }

static void expect(int holds, const char *what) {
    if (holds) return;
    wrong++;
    fprintf(stderr, "beside.c: file %d, its %s differs\n", files, what);
}

static struct bytes compare_survey(const char *line) {
    char *rest;
    struct bytes file = decoded(strchr(line, '.'), &rest);
    uint32_t place, sentences, sound_end;
    const uint32_t refusal = hraunlik_survey(file.at, file.length, tables, HRAUNLIK_TABLES, seen, HRAUNLIK_SEEN, &place,
                                             &sentences, &sound_end);
    const uint32_t told[] = {refusal, place, sentences, sound_end};
    for (int i = 0; i < 4; i++) expect(number(&rest) == told[i], "survey");
    return file;
}

static void compare_tidy(char *line, struct bytes file) {
    char *rest = line + strlen("tidy");
    const uint32_t refusal = number(&rest), at = number(&rest);
    struct bytes text = decoded(strchr(rest, '.'), &rest), output = room_for(file.length + HRAUNLIK_TIDY_ROOM);
    uint32_t place, length;
    expect(hraunlik_write(file.at, file.length, output.at, output.length, tables, HRAUNLIK_TABLES, seen, HRAUNLIK_SEEN, sheet,
                          HRAUNLIK_SHEET, edges, HRAUNLIK_EDGES, &place, &length) == refusal && place == at, "writing");
    expect(length == text.length && memcmp(output.at, text.at, length) == 0, "tidy text");
    free(text.at);
    free(output.at);
}

int main(void) {
    char *line = NULL;
    size_t room = 0;
    struct bytes file = {NULL, 0};
    while (getline(&line, &room, stdin) > 0) {
        if (strncmp(line, "file ", 5) == 0) {
            files++;
            file = compare_survey(line);
        } else if (strncmp(line, "tidy ", 5) == 0) {
            compare_tidy(line, file);
            free(file.at);
        }
    }
    free(line);
    printf("%d files beside the independent reader, %d differences\n", files, wrong);
    return files == 0 || wrong != 0;
}
