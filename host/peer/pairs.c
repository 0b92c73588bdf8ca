/* pairs.c: a second writer of table text, for the benchmark only. It is no
 * stand-in for the archive: engine.c is.
 *
 * On the benchmark's tables it is the fastest writer in C that we found. It
 * takes two digits a division, out of one table of 200 bytes, and stops with
 * the number. Only where a number seldom is as long as the one before does the
 * loop of engine.c do better, which has no branch to foresee.
 */
#include <stddef.h>
#include <stdint.h>
#include <string.h>

#include "rumbleog.h"

/* The numbers 00 to 99. */
static const char PAIRS[] =
    "0001020304050607080910111213141516171819"
    "2021222324252627282930313233343536373839"
    "4041424344454647484950515253545556575859"
    "6061626364656667686970717273747576777879"
    "8081828384858687888990919293949596979899";

static uint8_t *write_field(uint8_t *out, unsigned value, size_t width)
{
    uint8_t *at = out + width;
    memset(out, ' ', width);
    for (; value >= 100; value /= 100) {
        at -= 2;
        memcpy(at, PAIRS + 2 * (value % 100), 2);
    }
    if (value >= 10)
        memcpy(at - 2, PAIRS + 2 * value, 2);
    else
        at[-1] = (uint8_t)('0' + value);
    return out + width;
}

/* The parameters, the answer and the refusals of rumbleog_write_table. */
uint32_t peer_write_pairs(const uint16_t *days, size_t days_length, const uint16_t *first,
                          size_t first_length, const uint16_t *second, size_t second_length,
                          uint8_t *text, size_t text_length, uint64_t *place, uint64_t *length)
{
    *place = 0;
    *length = 0;
    if (days_length != first_length || first_length != second_length)
        return RUMBLEOG_COLUMNS_DIFFER;
    if (text_length / 18 < days_length)
        return RUMBLEOG_NO_ROOM;
    uint8_t *out = text;
    for (size_t i = 0; i < days_length; i++) {
        out = write_field(out, days[i], 5);
        out = write_field(out, first[i], 6);
        out = write_field(out, second[i], 6);
        *out++ = '\n';
    }
    *length = 18 * days_length;
    return RUMBLEOG_OK;
}
