/*
 * Files of Lupinenblatt as text, and text as files; docs/TEXT.md has the form. tools/show and tools/make build and call it:
 *
 *     text show table|providers|books|events FILE
 *     text show messages FILE [OUTCOMES]
 *     text make [--unsound] TEXT FILE [PROVIDERS]
 *
 * Whether a record is well formed, and whether a table or books are sound, the library says. Status: 0 done, 1 refused, 2 wrong use.
 */
#define _POSIX_C_SOURCE 200809L
#include <errno.h>
#include <fcntl.h>
#include <stdarg.h>
#include <stdio.h>
#include <stdlib.h>
#include <string.h>
#include <unistd.h>

#include "text.h"

#define MOST_BYTES ((size_t)1 << 30)

void refuse(const char *form, ...)
{
    va_list arguments;
    va_start(arguments, form);
    fprintf(stderr, "text: ");
    vfprintf(stderr, form, arguments);
    fprintf(stderr, "\n");
    va_end(arguments);
    exit(1);
}

void grow(bytes *b, size_t length)
{
    if (length > MOST_BYTES)
        refuse("more than %lu bytes", (unsigned long)MOST_BYTES);
    if (length > b->room) {
        b->room = length < 4096 ? 8192 : 2 * length;
        b->at = (uint8_t *)realloc(b->at, b->room);
        if (b->at == NULL)
            refuse("no memory");
    }
    if (length > b->length)
        memset(b->at + b->length, 0, length - b->length);
    b->length = length;
}

bytes read_file(const char *name)
{
    FILE *file = strcmp(name, "-") == 0 ? stdin : fopen(name, "rb");
    bytes b = {NULL, 0, 0};
    uint8_t piece[65536];
    size_t n;
    if (file == NULL)
        refuse("%s: %s", name, strerror(errno));
    grow(&b, 1);
    b.length = 0;
    while ((n = fread(piece, 1, sizeof piece, file)) > 0) {
        grow(&b, b.length + n);
        memcpy(b.at + b.length - n, piece, n);
    }
    if (ferror(file))
        refuse("%s: %s", name, strerror(errno));
    if (file != stdin)
        fclose(file);
    return b;
}

void write_file(const char *name, const bytes *b)
{
    char *part = (char *)malloc(strlen(name) + 6);
    size_t done = 0;
    int file;
    if (part == NULL)
        refuse("no memory");
    sprintf(part, "%s.part", name);
    file = open(part, O_WRONLY | O_CREAT | O_EXCL, 0666);
    if (file < 0)
        refuse("%s: %s", part, strerror(errno));
    while (done < b->length) {
        ssize_t n = write(file, b->at + done, b->length - done);
        if (n < 0 && errno == EINTR)
            continue;
        if (n <= 0)
            break;
        done += (size_t)n;
    }
    if (done < b->length || fsync(file) != 0 || close(file) != 0 || rename(part, name) != 0) {
        int error = errno;
        unlink(part);
        refuse("%s: %s", name, strerror(error));
    }
    free(part);
}

const char *authorization_name(uint64_t n) { return n == 0 ? "none" : n == 1 ? "yes" : n == 2 ? "no" : "no authorization"; }

uint64_t mask_of(unsigned width) { return width == 64 ? ~(uint64_t)0 : ((uint64_t)1 << width) - 1; }

const field row_fields[ROW_FIELDS] = {
    {"tn", NUMBER, 0, 30, 34, NULL, 0, 1},
    {"version", NUMBER, 0, 14, 16, NULL, 0, 1},
    {"status", WORD, 0, 10, 4, lupinenblatt_status_name, 8, 1},
    {"live", FLAG, 0, 9, 1, NULL, 0, 0},
    {"new", NUMBER, 1, 24, 6, NULL, 0, 1},
    {"old", NUMBER, 1, 18, 6, NULL, 0, 1},
    {"new-created", FLAG, 0, 8, 1, NULL, 0, 0},
    {"new-due", NUMBER, 2, 32, 32, NULL, 0, 0},
    {"lrn", NUMBER, 1, 30, 34, NULL, 0, 0},
    {"old-created", FLAG, 0, 7, 1, NULL, 0, 0},
    {"old-due", NUMBER, 2, 0, 32, NULL, 0, 0},
    {"authorization", WORD, 1, 16, 2, authorization_name, 2, 0},
    {"cause", NUMBER, 1, 9, 7, NULL, 0, 0},
    {"canceller", WORD, 1, 7, 2, lupinenblatt_canceller_name, 2, 0},
    {"window-ran-out", FLAG, 0, 6, 1, NULL, 0, 0},
    {"within", FLAG, 0, 5, 1, NULL, 0, 0},
    {"stamp", NUMBER, 3, 32, 32, NULL, 0, 1},
    {"start", NUMBER, 3, 0, 32, NULL, 0, 0},
    {"purpose", WORD, 1, 5, 2, lupinenblatt_purpose_name, 3, 0},
    {"confirmed", SET, 4, 0, 64, NULL, 0, 0},
    {"waiting", SET, 5, 0, 64, NULL, 0, 0},
    {"failed", SET, 6, 0, 64, NULL, 0, 0},
    {"retries", RETRIES, 7, 0, 63, NULL, 0, 0},
};

const field message_fields[MESSAGE_FIELDS] = {
    {"sort", WORD, 0, 0, 4, lupinenblatt_sort_name, 7, 1},
    {"provider", NUMBER, 0, 4, 6, NULL, 0, 1},
    {"local", FLAG, 1, 29, 1, NULL, 0, 0},
    {"tn", NUMBER, 0, 30, 34, NULL, 0, 1},
    {"version", NUMBER, 0, 14, 16, NULL, 0, 1},
    {"status", WORD, 0, 10, 4, lupinenblatt_status_name, 8, 1},
    {"lrn", NUMBER, 1, 30, 34, NULL, 0, 0},
    {"failed", SET, 2, 0, 64, NULL, 0, 0},
};

static int shown(int count, char **words)
{
    bytes b, outcomes;
    if (count < 4 || count > 5 || (count == 5 && strcmp(words[2], "messages") != 0))
        return 2;
    b = read_file(words[3]);
    if (count == 5)
        outcomes = read_file(words[4]);
    if (!show(words[2], &b, count == 5 ? &outcomes : NULL))
        return 2;
    if (fflush(stdout) != 0 || ferror(stdout))
        refuse("standard output: %s", strerror(errno));
    return 0;
}

int main(int count, char **words)
{
    int status = 2, unsound = count > 2 && strcmp(words[2], "--unsound") == 0;
    if (count > 1 && strcmp(words[1], "show") == 0)
        status = shown(count, words);
    else if (count > 1 && strcmp(words[1], "make") == 0 && count >= 4 + unsound && count <= 5 + unsound) {
        make(words[2 + unsound], words[3 + unsound], count == 5 + unsound ? words[4 + unsound] : NULL, !unsound);
        status = 0;
    }
    if (status == 2)
        fprintf(stderr, "use: show table|providers|books|events FILE, show messages FILE [OUTCOMES], make [--unsound] TEXT FILE [PROVIDERS]\n");
    return status;
}
