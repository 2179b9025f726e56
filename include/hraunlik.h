/* Hraunlik reads treebank files in the NeGra export format, version 3. docs/RULES.md has the rules,
 * docs/REFUSALS.md each refusal with its cure; tools/libraries makes libhraunlik.a and .so. A call
 * allocates nothing, keeps no pointer: threads may call at once, each with buffers of its own. */
#ifndef HRAUNLIK_H
#define HRAUNLIK_H
#include <stddef.h>
#include <stdint.h>
#ifdef __cplusplus
extern "C" {
#endif

/* Entries of the buffers, bytes of the longest file, bytes of a tidy text beyond its file's. */
enum { HRAUNLIK_SEEN = 8192, HRAUNLIK_EDGES = 2048, HRAUNLIK_TABLES = 10759, HRAUNLIK_SHEET = 11009,
  HRAUNLIK_PLACES = 65536, HRAUNLIK_FILE_LIMIT = 268435456, HRAUNLIK_TIDY_ROOM = 512 };

/* Each function's answer. After 1, 2 no buffer has changed; *place, *sentences and so on are 0. */
enum { HRAUNLIK_GRANTED = 0, HRAUNLIK_WRONG_SIZE = 1, /* of a buffer */ HRAUNLIK_FILE_TOO_LONG = 2,
  HRAUNLIK_UNENDED = 3, /* last line */ HRAUNLIK_ILLEGAL_BYTE = 4, HRAUNLIK_LINE_TOO_LONG = 5,
  HRAUNLIK_CANNOT_STAND = 6, /* here */ HRAUNLIK_WRONG_COLUMNS = 7, HRAUNLIK_BAD_NUMBER = 8,
  HRAUNLIK_WRONG_FORMAT = 9, /* or none */ HRAUNLIK_BAD_TEXT = 10, /* too long; no tag; no flag */
  HRAUNLIK_ROW_OUT_OF_PLACE = 11, /* by id or tag */ HRAUNLIK_TABLE_FULL = 12, /* 257th row */
  HRAUNLIK_TABLE_MISSING = 13, /* ORIGIN, EDITOR */ HRAUNLIK_NUMBER_USED = 14, /* on #BOS */
  HRAUNLIK_UNKNOWN_CITED = 15, /* editor, origin */ HRAUNLIK_SENTENCE_FULL = 16, /* words, edges */
  HRAUNLIK_PHRASE_TWICE = 17, HRAUNLIK_UNKNOWN_TAG = 18,
  HRAUNLIK_WRONG_PARENT = 19, /* too low; a secondary one: the phrase itself */
  HRAUNLIK_OTHER_NUMBER = 20, /* on #EOS */ HRAUNLIK_PHRASE_GAP = 21, HRAUNLIK_PARENT_ABSENT = 22,
  HRAUNLIK_ENDS_INSIDE = 23, HRAUNLIK_NOT_HANDED_OUT = 24, HRAUNLIK_NO_ROOM = 25, /* tidy text */
  HRAUNLIK_UNEXPLAINED = 26 /* tag */ };

/* A text is two numbers, its start in the file and its length; 0, 0 if absent. Unused room is zero.
 * Seen set: number n is bit n % 8 of byte n / 8. Table sheet: 7 counts (0 absent, else rows + 1) of
 * ORIGIN, EDITOR, WORDTAG, MORPHTAG, NODETAG, EDGETAG, SECEDGETAG; row k of table t begins at
 * 7 + (256 t + k) 6: id + 1; name, login or tag; comment, full name or description; 1 if flag Y. */
enum { HRAUNLIK_TABLE_COUNT = 7, HRAUNLIK_ROW_ROOM = 256, HRAUNLIK_ROW_WIDTH = 6,
  HRAUNLIK_ROW_ID = 0, HRAUNLIK_ROW_FIRST = 1, HRAUNLIK_ROW_SECOND = 3, HRAUNLIK_ROW_FLAG = 5 };
/* Sentence sheet: 9 numbers, of the editor id + 1; node n (words from 0; phrases from 500, without
 * a word) at 9 + 11 n. List of secondary edges: 512 records of 4, in the order of the file. */
enum { HRAUNLIK_NUMBER = 0, HRAUNLIK_EDITOR = 1, HRAUNLIK_DATE = 2, HRAUNLIK_ORIGIN = 3,
  HRAUNLIK_COMMENT = 4, /* how many: */ HRAUNLIK_WORDS = 6, HRAUNLIK_PHRASES = 7,
  HRAUNLIK_SECONDARY = 8, HRAUNLIK_LEADING = 9, HRAUNLIK_FIRST_PHRASE = 500,
  HRAUNLIK_NODE_ROOM = 1000, HRAUNLIK_NODE_WIDTH = 11, HRAUNLIK_NODE_WORD = 0,
  HRAUNLIK_NODE_TAG = 2, HRAUNLIK_NODE_MORPHOLOGY = 4, HRAUNLIK_NODE_EDGE = 6,
  HRAUNLIK_NODE_PARENT = 8, /* 0 or a phrase */ HRAUNLIK_NODE_COMMENT = 9, HRAUNLIK_EDGE_WIDTH = 4,
  HRAUNLIK_EDGE_CHILD = 0, HRAUNLIK_EDGE_LABEL = 1, HRAUNLIK_EDGE_PARENT = 3 };

/* Behind each pointer to several entries, never NULL, stands how many are lent: of a buffer, its
 * size. What it held doesn't matter; it overlaps nothing else lent. Handed out are the sentences
 * that end in front of a fault: seen has their numbers, *sentences how many, *sound_end where the
 * last ends, or 0. tables has the tables that end there; *place is where the line at fault begins,
 * for 8, 10, 15, 18 and 19 its column at fault, or the file's length. A survey checks a file: 0 if
 * it is accepted, else 1 to 23. */
uint32_t hraunlik_survey(const uint8_t *file, size_t, uint32_t *tables, size_t, uint8_t *seen,
    size_t, uint32_t *place, uint32_t *sentences, uint32_t *sound_end);
/* A survey; places[n] is 1 + the place where sentence n begins if it is handed out, else 0. */
uint32_t hraunlik_index(const uint8_t *file, size_t, uint32_t *tables, size_t, uint8_t *seen,
    size_t, uint32_t *places, size_t, uint32_t *place, uint32_t *sentences, uint32_t *sound_end);
/* A survey that opens the sentence with a number: 0 if it is handed out, even if the file is
 * refused; else 24 with zeros in sheet and edges; or 1, 2. */
uint32_t hraunlik_open(const uint8_t *file, size_t, uint32_t number, uint32_t *tables, size_t,
    uint8_t *seen, size_t, uint32_t *sheet, size_t, uint32_t *edges, size_t);
/* Opens the sentence that begins at a place, reading it alone: 0, or 24 with zeros if none does; or
 * 1, 2. At places[n] - 1 it is sentence n. */
uint32_t hraunlik_open_at(const uint8_t *file, size_t, uint32_t place, uint32_t *sheet, size_t,
    uint32_t *edges, size_t);
/* A survey that writes the tidy text of an accepted file to the front of output, of any length (the
 * file's and HRAUNLIK_TIDY_ROOM more suffices if that is at most HRAUNLIK_FILE_LIMIT): 0, and
 * *length is the text's; else the survey's refusal, or 25, with output unchanged and *length 0.
 * sheet and edges end as zeros. */
uint32_t hraunlik_write(const uint8_t *file, size_t, uint8_t *output, size_t, uint32_t *tables,
    size_t, uint8_t *seen, size_t, uint32_t *sheet, size_t, uint32_t *edges, size_t,
    uint32_t *place, uint32_t *length);
/* Explains a tag of a table, named by its place in the order above: 3 for WORDTAG to 7. Its
 * description is a part of file if that has the table, else of list, an export file too and maybe
 * the same: *of says which, and it has *length bytes from *start on. 0; else 1, 2 for either, the
 * file's refusal, the list's, or 26, with *start and *length 0. tables and seen end as zeros. */
enum { HRAUNLIK_OF_NEITHER = 0, HRAUNLIK_OF_FILE = 1, HRAUNLIK_OF_LIST = 2 };
uint32_t hraunlik_explain(const uint8_t *file, size_t, const uint8_t *list, size_t, uint32_t table,
    const uint8_t *tag, size_t, uint32_t *tables, size_t, uint8_t *seen, size_t, uint32_t *of,
    uint32_t *start, uint32_t *length);
#ifdef __cplusplus
}
#endif
#endif
