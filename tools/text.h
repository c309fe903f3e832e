/* What tools/text.c, show.c and make.c share. */
#ifndef LUPINENBLATT_TOOLS_TEXT_H
#define LUPINENBLATT_TOOLS_TEXT_H

#include "lupinenblatt.h"

/* Says why on standard error, and ends with status 1. */
void refuse(const char *form, ...);

/* Bytes that grow. */
typedef struct {
    uint8_t *at;
    size_t length, room;
} bytes;

/* Makes them so long; what comes in is zero. */
void grow(bytes *b, size_t length);

/* A whole file; '-' is standard input. */
bytes read_file(const char *name);

/* Writes beside the name, to NAME.part, which gets the name when it is whole on the disk. */
void write_file(const char *name, const bytes *b);

typedef const char *naming(uint64_t number);

const char *authorization_name(uint64_t n);

/* NUMBER, a number; FLAG, its name alone; WORD, a word of `names`; SET, providers with commas; RETRIES, provider:retries with commas. */
typedef enum { NUMBER, FLAG, WORD, SET, RETRIES } form;

typedef struct {
    const char *name;
    form form;
    unsigned word, low, width;
    naming *names;     /* of a WORD, from 0 to `last` */
    unsigned last;
    int always;        /* told also where it is 0 */
} field;

#define ROW_FIELDS 23
#define MESSAGE_FIELDS 8

extern const field row_fields[ROW_FIELDS];
extern const field message_fields[MESSAGE_FIELDS];

uint64_t mask_of(unsigned width);

/* Shows the file of this sort, with OUTCOMES or NULL; answers 0 where there is no such sort. */
int show(const char *sort, const bytes *b, bytes *outcomes);

/* Makes the text to the file. PROVIDERS may be NULL; `sound` asks for soundness. */
void make(const char *text, const char *name, const char *providers, int sound);

#endif
