/* Calls the sense library from C, and compares every answer with a table of results
   and a layout of sense data that are written here a second time. */
#include <stddef.h>
#include <stdint.h>
#include <stdio.h>

struct sense_values {
    uint8_t key;
    uint8_t code;
    uint8_t qualifier;
};

struct sense_values sense_result(uint8_t status, uint8_t error);
uint32_t sense_write(uint8_t *out, size_t length, uint8_t key, uint8_t code, uint8_t qualifier, uint64_t block);

enum { DATA_LENGTH = 18, LONGEST = 24, ROOM = 32, BUFFER_SHORT = 6 };

/* A row fits where each byte, under its mask, has the row's value; the last fits every pair. */
struct row {
    uint8_t status_mask, status_value;
    uint8_t error_mask, error_value;
    struct sense_values values;
};

static const struct row rows[] = {
    {0xFF, 0x00, 0x00, 0x00, {0x4, 0x08, 0x00}}, /* no answer */
    {0x20, 0x20, 0x00, 0x00, {0x4, 0x44, 0x00}}, /* device fault */
    {0x01, 0x00, 0x00, 0x00, {0x0, 0x00, 0x00}}, /* no error */
    {0x00, 0x00, 0x80, 0x80, {0xB, 0x47, 0x03}}, /* interface CRC */
    {0x00, 0x00, 0x40, 0x40, {0x3, 0x11, 0x00}}, /* unreadable */
    {0x00, 0x00, 0x10, 0x10, {0x3, 0x14, 0x00}}, /* not found */
    {0x00, 0x00, 0x00, 0x00, {0xB, 0x00, 0x00}}, /* aborted */
};

static const struct sense_values samples[] = {
    {0x0, 0x00, 0x00}, {0x3, 0x11, 0x00}, {0x4, 0x44, 0x00}, {0x5, 0x21, 0x00}, {0x6, 0x29, 0x00}, {0xB, 0x47, 0x03}, {0xFF, 0xFE, 0xFD},
};

static const uint64_t blocks[] = {0, 1, 0x01020304, 0xFFFFFFFF, 0x100000000, UINT64_MAX};

#define COUNT(array) (sizeof(array) / sizeof((array)[0]))

static unsigned long comparisons, mismatches;

static void compare(const char *what, size_t place, unsigned got, unsigned expected)
{
    comparisons++;
    if (got == expected)
        return;
    mismatches++;
    if (mismatches <= 20)
        fprintf(stderr, "%s, place %zu: got %02Xh, expected %02Xh\n", what, place, got, expected);
}

static struct sense_values expected_result(unsigned status, unsigned error)
{
    const struct row *row = rows;
    while ((status & row->status_mask) != row->status_value || (error & row->error_mask) != row->error_value)
        row++;
    return row->values;
}

static unsigned long check_results(void)
{
    unsigned long count = 0;
    for (unsigned status = 0; status < 256; status++) {
        for (unsigned error = 0; error < 256; error++) {
            struct sense_values got = sense_result((uint8_t)status, (uint8_t)error);
            struct sense_values expected = expected_result(status, error);
            size_t place = status * 256 + error;
            compare("sense key", place, got.key, expected.key);
            compare("additional sense code", place, got.code, expected.code);
            compare("qualifier", place, got.qualifier, expected.qualifier);
            count++;
        }
    }
    return count;
}

/* What a buffer holds before a call: no byte of it is one that sense data has at that place. */
static uint8_t fill(size_t place)
{
    return (uint8_t)(0x81 + place);
}

static unsigned expected_byte(size_t place, struct sense_values values, uint64_t block)
{
    int valid = (block >> 32) == 0;
    switch (place) {
    case 0:
        return valid ? 0xF0 : 0x70;
    case 2:
        return values.key;
    case 3:
    case 4:
    case 5:
    case 6:
        return valid ? (block >> (8 * (6 - place))) & 0xFF : 0;
    case 7:
        return 0x0A;
    case 12:
        return values.code;
    case 13:
        return values.qualifier;
    default:
        return 0;
    }
}

static void check_write(size_t length, struct sense_values values, uint64_t block)
{
    uint8_t buffer[ROOM];
    for (size_t place = 0; place < ROOM; place++)
        buffer[place] = fill(place);
    uint32_t answer = sense_write(buffer, length, values.key, values.code, values.qualifier, block);
    int written = length >= DATA_LENGTH;
    compare("answer at length", length, answer, written ? 0 : BUFFER_SHORT);
    for (size_t place = 0; place < ROOM; place++) {
        unsigned expected = written && place < DATA_LENGTH ? expected_byte(place, values, block) : fill(place);
        compare("sense data", place, buffer[place], expected);
    }
}

int main(void)
{
    unsigned long results = check_results();
    unsigned long writes = 0;
    for (size_t s = 0; s < COUNT(samples); s++) {
        for (size_t b = 0; b < COUNT(blocks); b++) {
            for (size_t length = 0; length <= LONGEST; length++) {
                check_write(length, samples[s], blocks[b]);
                writes++;
            }
        }
    }
    printf("c-check: %lu results and %lu writes, %lu comparisons, %lu mismatches\n", results, writes, comparisons, mismatches);
    return mismatches != 0;
}
