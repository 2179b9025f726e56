/* Uses each function of the library as a program in C does, on the examples and on small files written here. The first
 * argument is the folder of the examples. */
#include "hraunlik.h"
#include <stdio.h>
#include <stdlib.h>
#include <string.h>

static uint32_t tables[HRAUNLIK_TABLES], places[HRAUNLIK_PLACES], sheet[HRAUNLIK_SHEET], edges[HRAUNLIK_EDGES];
static uint8_t seen[HRAUNLIK_SEEN];
static uint32_t place, sentences, sound_end;
static int checked, wrong;

struct file { uint8_t *bytes; size_t length; };

static void check(int holds, const char *what, int line) {
    checked++;
    if (holds) return;
    wrong++;
    fprintf(stderr, "hands.c:%d: %s\n", line, what);
}
#define CHECK(fact) check((fact), #fact, __LINE__)

/* Whatever the buffers held must not show. */
static void fill_with_noise(void) {
    memset(tables, 0xa5, sizeof tables);
    memset(seen, 0xa5, sizeof seen);
    memset(places, 0xa5, sizeof places);
    memset(sheet, 0xa5, sizeof sheet);
    memset(edges, 0xa5, sizeof edges);
    place = sentences = sound_end = 0xa5a5a5a5;
}

static struct file read_file(const char *folder, const char *name) {
    char path[4096];
    snprintf(path, sizeof path, "%s/%s", folder, name);
    FILE *stream = fopen(path, "rb");
    struct file file = {malloc(65536), 0};
    if (!stream || !file.bytes) { perror(path); exit(2); }
    file.length = fread(file.bytes, 1, 65536, stream);
    fclose(stream);
    return file;
}

/* A copy that ends where its memory ends, so that a sanitizer sees what is read behind it. */
static struct file copy_of(const char *text) {
    struct file file = {malloc(strlen(text) + 1), strlen(text)};
    if (!file.bytes) exit(2);
    memcpy(file.bytes, text, file.length);
    return file;
}

static uint32_t survey(struct file file) {
    fill_with_noise();
    return hraunlik_survey(file.bytes, file.length, tables, HRAUNLIK_TABLES, seen, HRAUNLIK_SEEN, &place, &sentences, &sound_end);
}

static uint32_t index_all(struct file file) {
    fill_with_noise();
    return hraunlik_index(file.bytes, file.length, tables, HRAUNLIK_TABLES, seen, HRAUNLIK_SEEN, places, HRAUNLIK_PLACES,
                          &place, &sentences, &sound_end);
}

static uint32_t open_number(struct file file, uint32_t number) {
    fill_with_noise();
    return hraunlik_open(file.bytes, file.length, number, tables, HRAUNLIK_TABLES, seen, HRAUNLIK_SEEN, sheet, HRAUNLIK_SHEET,
                         edges, HRAUNLIK_EDGES);
}

static uint32_t open_at(struct file file, uint32_t there) {
    fill_with_noise();
    return hraunlik_open_at(file.bytes, file.length, there, sheet, HRAUNLIK_SHEET, edges, HRAUNLIK_EDGES);
}

static int answers(uint32_t at, uint32_t handed_out, uint32_t end) {
    return place == at && sentences == handed_out && sound_end == end;
}

static int is_text(struct file file, const uint32_t *text, const char *expected) {
    return text[1] == strlen(expected) && memcmp(file.bytes + text[0], expected, text[1]) == 0;
}

static const uint32_t *node(uint32_t number) { return sheet + HRAUNLIK_LEADING + HRAUNLIK_NODE_WIDTH * number; }

static const uint32_t *row(uint32_t table, uint32_t k) {
    return tables + HRAUNLIK_TABLE_COUNT + (HRAUNLIK_ROW_ROOM * table + k) * HRAUNLIK_ROW_WIDTH;
}

static int has(uint32_t number) { return seen[number / 8] >> number % 8 & 1; }

static int no_sentence(void) {
    uint32_t sum = 0;
    for (size_t i = 0; i < HRAUNLIK_SHEET; i++) sum |= sheet[i];
    for (size_t i = 0; i < HRAUNLIK_EDGES; i++) sum |= edges[i];
    return sum == 0;
}

static void layouts(void) {
    CHECK(HRAUNLIK_TABLE_COUNT + HRAUNLIK_TABLE_COUNT * HRAUNLIK_ROW_ROOM * HRAUNLIK_ROW_WIDTH == HRAUNLIK_TABLES);
    CHECK(HRAUNLIK_LEADING + HRAUNLIK_NODE_ROOM * HRAUNLIK_NODE_WIDTH == HRAUNLIK_SHEET);
    CHECK(512 * HRAUNLIK_EDGE_WIDTH == HRAUNLIK_EDGES);
    CHECK(8 * HRAUNLIK_SEEN == HRAUNLIK_PLACES);
}

static void small_example(struct file ja) {
    CHECK(survey(ja) == HRAUNLIK_GRANTED && answers(126, 1, 126));
    CHECK(tables[0] == 2 && tables[1] == 2 && tables[2] == 0);
    CHECK(row(0, 0)[HRAUNLIK_ROW_ID] == 2 && is_text(ja, row(0, 0) + HRAUNLIK_ROW_FIRST, "lab"));
    CHECK(row(1, 0)[HRAUNLIK_ROW_ID] == 3 && is_text(ja, row(1, 0) + HRAUNLIK_ROW_SECOND, "Kim"));
    CHECK(has(7) && !has(8));
    CHECK(index_all(ja) == HRAUNLIK_GRANTED && answers(126, 1, 126));
    CHECK(places[7] == 75 && places[8] == 0);
    CHECK(open_number(ja, 7) == HRAUNLIK_GRANTED && sheet[HRAUNLIK_NUMBER] == 7 && has(7));
    CHECK(sheet[HRAUNLIK_EDITOR] == 3 && sheet[HRAUNLIK_ORIGIN] == 1 && sheet[HRAUNLIK_WORDS] == 1 && sheet[HRAUNLIK_PHRASES] == 1);
    CHECK(is_text(ja, node(0) + HRAUNLIK_NODE_WORD, "Ja") && is_text(ja, node(0) + HRAUNLIK_NODE_TAG, "ITJ"));
    CHECK(node(0)[HRAUNLIK_NODE_PARENT] == HRAUNLIK_FIRST_PHRASE && node(HRAUNLIK_FIRST_PHRASE)[HRAUNLIK_NODE_PARENT] == 0);
    CHECK(open_number(ja, 8) == HRAUNLIK_NOT_HANDED_OUT && no_sentence() && has(7));
    CHECK(open_at(ja, 74) == HRAUNLIK_GRANTED && sheet[HRAUNLIK_NUMBER] == 7);
    CHECK(open_at(ja, 75) == HRAUNLIK_NOT_HANDED_OUT && no_sentence());
    ja.length = 125;
    CHECK(survey(ja) == HRAUNLIK_UNENDED && answers(119, 0, 0) && !has(7));
    CHECK(open_number(ja, 7) == HRAUNLIK_NOT_HANDED_OUT && no_sentence());
    ja.length = 0;
    CHECK(survey(ja) == HRAUNLIK_WRONG_FORMAT && answers(0, 0, 0));
}

static void printed_example(struct file schade) {
    CHECK(index_all(schade) == HRAUNLIK_GRANTED && answers((uint32_t)schade.length, 1, (uint32_t)schade.length));
    CHECK(tables[2] == 13 && row(2, 2)[HRAUNLIK_ROW_FLAG] == 1 && is_text(schade, row(2, 2) + HRAUNLIK_ROW_FIRST, "ADJD"));
    const uint32_t there = places[12] - 1;
    CHECK(open_at(schade, there) == HRAUNLIK_GRANTED && sheet[HRAUNLIK_NUMBER] == 12);
    CHECK(open_at(schade, there + 1) == HRAUNLIK_NOT_HANDED_OUT && no_sentence());
    CHECK(open_number(schade, 12) == HRAUNLIK_GRANTED && sheet[HRAUNLIK_NUMBER] == 12);
    CHECK(sheet[HRAUNLIK_WORDS] == 12 && sheet[HRAUNLIK_PHRASES] == 4 && sheet[HRAUNLIK_DATE] == 847184076);
    CHECK(is_text(schade, node(4) + HRAUNLIK_NODE_WORD, "Arzt") && is_text(schade, node(4) + HRAUNLIK_NODE_EDGE, "NK"));
    CHECK(is_text(schade, node(503) + HRAUNLIK_NODE_MORPHOLOGY, "****") && node(502)[HRAUNLIK_NODE_PARENT] == 503);
}

/* Two sentences, secondary edges, comments, and a fault behind the first. */
static void written_here(void) {
    struct file file = copy_of("#FORMAT 3\n#BOT ORIGIN\n1 lab\n#EOT ORIGIN\n#BOT EDITOR\n#EOT EDITOR\n"
                               "#BOS 2 0 5 1 %% by hand\nJa ITJ -- -- 500 re 501 %% yes\n#500 S -- -- 501\n#501 S -- -- 0\n#EOS 2\n"
                               "#BOS 3 0 5 1\nJa ITJ -- -- 500\n#EOS 3\n");
    CHECK(index_all(file) == HRAUNLIK_PARENT_ABSENT && answers(188, 1, 158) && places[2] == 65 && places[3] == 0);
    CHECK(open_at(file, 64) == HRAUNLIK_GRANTED && sheet[HRAUNLIK_SECONDARY] == 1);
    CHECK(is_text(file, sheet + HRAUNLIK_COMMENT, "by hand") && is_text(file, node(0) + HRAUNLIK_NODE_COMMENT, "yes"));
    CHECK(edges[HRAUNLIK_EDGE_CHILD] == 0 && edges[HRAUNLIK_EDGE_PARENT] == 501 && is_text(file, edges + HRAUNLIK_EDGE_LABEL, "re"));
    CHECK(open_number(file, 3) == HRAUNLIK_NOT_HANDED_OUT && no_sentence());
    file.length = 158;
    CHECK(survey(file) == HRAUNLIK_GRANTED && answers(158, 1, 158));
    free(file.bytes);
}

/* The output is a byte longer than the room that is lent, so that one sees what is written behind it. */
static uint32_t write_tidy(struct file file, uint8_t *output, size_t room, uint32_t *length) {
    fill_with_noise();
    memset(output, 0xa5, room + 1);
    *length = 0xa5a5a5a5;
    return hraunlik_write(file.bytes, file.length, output, room, tables, HRAUNLIK_TABLES, seen, HRAUNLIK_SEEN, sheet,
                          HRAUNLIK_SHEET, edges, HRAUNLIK_EDGES, &place, length);
}

static void tidy_text(struct file ja) {
    static const char tidy[] = "#FORMAT 3\n#BOT ORIGIN\n1\tlab\n#EOT ORIGIN\n#BOT EDITOR\n2\tkim\tKim\n#EOT EDITOR\n"
                               "#BOS 7 2 0 1\nJa\tITJ\t--\t--\t500\n#500\tS\t--\t--\t0\n#EOS 7\n";
    uint8_t output[640];
    uint32_t length;
    CHECK(write_tidy(ja, output, 126, &length) == HRAUNLIK_GRANTED && place == 126 && length == 126);
    CHECK(memcmp(output, tidy, 126) == 0 && output[126] == 0xa5 && no_sentence() && has(7) && tables[0] == 2);
    CHECK(write_tidy(ja, output, 125, &length) == HRAUNLIK_NO_ROOM && place == 126 && length == 0 && output[0] == 0xa5);
    CHECK(write_tidy(ja, output, 0, &length) == HRAUNLIK_NO_ROOM && no_sentence() && has(7));
    ja.length = 119;
    CHECK(write_tidy(ja, output, 600, &length) == HRAUNLIK_ENDS_INSIDE && place == 119 && length == 0 && output[0] == 0xa5);
}

/* The tidy text of a tidy text is itself. */
static void tidy_again(struct file schade) {
    const size_t room = schade.length + HRAUNLIK_TIDY_ROOM;
    struct file tidy = {malloc(room + 1), 0}, again = {malloc(room + 1), 0};
    uint32_t length;
    if (!tidy.bytes || !again.bytes) exit(2);
    CHECK(write_tidy(schade, tidy.bytes, room, &length) == HRAUNLIK_GRANTED && place == schade.length);
    tidy.length = length;
    CHECK(write_tidy(tidy, again.bytes, length, &length) == HRAUNLIK_GRANTED && length == tidy.length);
    CHECK(memcmp(tidy.bytes, again.bytes, length) == 0 && has(12));
    free(tidy.bytes);
    free(again.bytes);
}

static struct { uint32_t of, start, length; } told;

static uint32_t explain(struct file file, struct file list, uint32_t table, const char *tag) {
    fill_with_noise();
    memset(&told, 0xa5, sizeof told);
    return hraunlik_explain(file.bytes, file.length, list.bytes, list.length, table, (const uint8_t *)tag, strlen(tag), tables,
                            HRAUNLIK_TABLES, seen, HRAUNLIK_SEEN, &told.of, &told.start, &told.length);
}

static int explained_by(uint32_t of, struct file whole, const char *expected) {
    const uint32_t text[2] = {told.start, told.length};
    return told.of == of && is_text(whole, text, expected);
}

static int empty_part(uint32_t of) { return told.of == of && told.start == 0 && told.length == 0; }

static int cleared(void) {
    uint32_t sum = 0;
    for (size_t i = 0; i < HRAUNLIK_TABLES; i++) sum |= tables[i];
    for (size_t i = 0; i < HRAUNLIK_SEEN; i++) sum |= seen[i];
    return sum == 0;
}

/* The small example has no tag table, the printed one has all. */
static void tags_explained(struct file ja, struct file schade) {
    static const char adjective[] = "Attributives Adjektiv";
    CHECK(explain(schade, ja, 3, "ADJD") == HRAUNLIK_GRANTED && explained_by(HRAUNLIK_OF_FILE, schade, adjective) && cleared());
    CHECK(explain(ja, schade, 3, "ADJD") == HRAUNLIK_GRANTED && explained_by(HRAUNLIK_OF_LIST, schade, adjective) && cleared());
    CHECK(explain(schade, schade, 3, "ADJD") == HRAUNLIK_GRANTED && explained_by(HRAUNLIK_OF_FILE, schade, adjective));
    CHECK(explain(ja, schade, 7, "--") == HRAUNLIK_GRANTED && empty_part(HRAUNLIK_OF_LIST) && cleared());
    CHECK(explain(ja, ja, 3, "ADJD") == HRAUNLIK_UNEXPLAINED && empty_part(HRAUNLIK_OF_NEITHER) && cleared());
    CHECK(explain(ja, ja, 3, "--") == HRAUNLIK_UNEXPLAINED && explain(schade, ja, 3, "") == HRAUNLIK_UNEXPLAINED);
    CHECK(explain(schade, ja, 2, "--") == HRAUNLIK_UNEXPLAINED && explain(schade, ja, 8, "--") == HRAUNLIK_UNEXPLAINED);
    ja.length = 119;
    CHECK(explain(ja, schade, 3, "ADJD") == HRAUNLIK_ENDS_INSIDE && empty_part(HRAUNLIK_OF_NEITHER) && cleared());
    CHECK(explain(schade, ja, 3, "ADJD") == HRAUNLIK_ENDS_INSIDE && empty_part(HRAUNLIK_OF_NEITHER) && cleared());
}

/* A buffer of another size is refused, and nothing changes. */
static void wrong_sizes(struct file ja) {
    const uint8_t *f = ja.bytes;
    uint8_t output[640] = {0xa5};
    uint32_t length = 0xa5a5a5a5;
    const size_t n = ja.length, t = HRAUNLIK_TABLES, s = HRAUNLIK_SEEN, h = HRAUNLIK_SHEET, e = HRAUNLIK_EDGES;
    fill_with_noise();
    CHECK(hraunlik_survey(f, n, tables, t - 1, seen, s, &place, &sentences, &sound_end) == HRAUNLIK_WRONG_SIZE && answers(0, 0, 0));
    CHECK(hraunlik_survey(f, n, tables, t, seen, 0, &place, &sentences, &sound_end) == HRAUNLIK_WRONG_SIZE);
    CHECK(hraunlik_index(f, n, tables, t, seen, s, places, 65535, &place, &sentences, &sound_end) == HRAUNLIK_WRONG_SIZE);
    CHECK(hraunlik_open(f, n, 7, tables, t, seen, s, sheet, h, edges, e - 1) == HRAUNLIK_WRONG_SIZE);
    CHECK(hraunlik_open_at(f, n, 74, sheet, h - 1, edges, e) == HRAUNLIK_WRONG_SIZE);
    CHECK(hraunlik_write(f, n, output, 640, tables, t, seen, s + 1, sheet, h, edges, e, &place, &length) == HRAUNLIK_WRONG_SIZE);
    CHECK(place == 0 && length == 0 && output[0] == 0xa5);
    CHECK(hraunlik_explain(f, n, f, n, 3, f, 2, tables, t - 1, seen, s, &told.of, &told.start, &told.length) == HRAUNLIK_WRONG_SIZE);
    CHECK(empty_part(HRAUNLIK_OF_NEITHER));
    CHECK(tables[0] == 0xa5a5a5a5 && seen[0] == 0xa5 && places[7] == 0xa5a5a5a5 && sheet[0] == 0xa5a5a5a5 && edges[0] == 0xa5a5a5a5);
}

static void file_limit(struct file ja) {
    struct file file = {calloc(HRAUNLIK_FILE_LIMIT + 1, 1), HRAUNLIK_FILE_LIMIT + 1};
    uint8_t output[2];
    uint32_t length;
    if (!file.bytes) exit(2);
    CHECK(survey(file) == HRAUNLIK_FILE_TOO_LONG && answers(0, 0, 0) && tables[0] == 0xa5a5a5a5);
    CHECK(open_at(file, 0) == HRAUNLIK_FILE_TOO_LONG && sheet[0] == 0xa5a5a5a5);
    CHECK(write_tidy(file, output, 1, &length) == HRAUNLIK_FILE_TOO_LONG && length == 0 && output[0] == 0xa5);
    CHECK(explain(file, ja, 3, "NN") == HRAUNLIK_FILE_TOO_LONG && explain(ja, file, 3, "NN") == HRAUNLIK_FILE_TOO_LONG);
    CHECK(empty_part(HRAUNLIK_OF_NEITHER) && tables[0] == 0xa5a5a5a5 && seen[0] == 0xa5);
    file.length = HRAUNLIK_FILE_LIMIT;
    CHECK(survey(file) == HRAUNLIK_UNENDED && answers(0, 0, 0));
    free(file.bytes);
}

int main(int count, char **words) {
    if (count != 2) return 2;
    struct file ja = read_file(words[1], "ja.export"), schade = read_file(words[1], "schade.export");
    layouts();
    small_example(ja);
    printed_example(schade);
    written_here();
    tidy_text(ja);
    tidy_again(schade);
    tags_explained(ja, schade);
    wrong_sizes(ja);
    file_limit(ja);
    free(ja.bytes);
    free(schade.bytes);
    printf("%d checks, %d failed\n", checked, wrong);
    return wrong != 0;
}
