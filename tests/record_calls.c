/*
 * The cases of tests/record_vectors.py once more, by the calls for C. In the repository's folder:
 *
 *     cc -std=c99 -Wall -Wextra -pedantic -Iinclude tests/record_calls.c "$(examples/library)" -o target/record_calls
 *     target/record_calls < crates/records/stdin | cmp - crates/records/stdout
 *
 * It writes what the program crates/records writes; cmp says nothing where both agree.
 */
#include <stdio.h>
#include <string.h>

#include "lupinenblatt.h"

static void print_numbers(const uint64_t *numbers, size_t count)
{
    for (size_t i = 0; i < count; i++)
        printf(" %llu", (unsigned long long)numbers[i]);
}

static void print_bytes(const uint8_t *bytes, size_t count)
{
    if (count > 0)
        printf(" ");
    for (size_t i = 0; i < count; i++)
        printf("%02x", bytes[i]);
}

static uint8_t write_fields(const uint64_t *f, uint8_t *out, size_t length)
{
    return lupinenblatt_record_write(f[LUPINENBLATT_FIELD_KIND], f[LUPINENBLATT_FIELD_SENDER], f[LUPINENBLATT_FIELD_OTHER],
                                     f[LUPINENBLATT_FIELD_MARK], f[LUPINENBLATT_FIELD_CAUSE], f[LUPINENBLATT_FIELD_TN],
                                     f[LUPINENBLATT_FIELD_LRN], f[LUPINENBLATT_FIELD_VERSION], f[LUPINENBLATT_FIELD_TIME],
                                     f[LUPINENBLATT_FIELD_DUE], f[LUPINENBLATT_FIELD_WITHIN], out, length);
}

static void read_case(const uint8_t *bytes, size_t length)
{
    uint64_t fields[LUPINENBLATT_RECORD_FIELDS] = {0};
    uint8_t said = lupinenblatt_record_read(bytes, length, fields, LUPINENBLATT_RECORD_FIELDS);
    printf(" %u", said);
    if (said == LUPINENBLATT_DONE) {
        uint8_t back[LUPINENBLATT_RECORD_BYTES] = {0};
        print_numbers(fields, LUPINENBLATT_RECORD_FIELDS);
        printf(" %u", write_fields(fields, back, sizeof back));
        print_bytes(back, sizeof back);
    }
}

static void write_case(const uint8_t *body, size_t length, int reads_back)
{
    uint64_t fields[LUPINENBLATT_RECORD_FIELDS] = {0};
    uint8_t out[56], said;
    memset(out, 0xa5, sizeof out);
    for (size_t i = 0; i < 8 * LUPINENBLATT_RECORD_FIELDS; i++)
        fields[i / 8] = fields[i / 8] << 8 | body[i];
    said = write_fields(fields, out, length);
    printf(" %u", said);
    print_bytes(out, length);
    if (said == LUPINENBLATT_DONE && reads_back) {
        uint64_t again[LUPINENBLATT_RECORD_FIELDS] = {0};
        printf(" %u", lupinenblatt_record_read(out, length, again, LUPINENBLATT_RECORD_FIELDS));
        print_numbers(again, LUPINENBLATT_RECORD_FIELDS);
    }
}

int main(void)
{
    uint8_t frame[96];
    for (unsigned long place = 1; fread(frame, sizeof frame, 1, stdin) == 1; place++) {
        printf("%lu %c", place, frame[0]);
        if (frame[0] == 'R')
            read_case(frame + 8, frame[1]);
        else
            write_case(frame + 8, frame[1], frame[0] == 'N');
        printf("\n");
    }
    return 0;
}
