/* host.c: a C host of rumbleog.
 *
 *   host list FILE           lists the rings of FILE: a query line, then rows
 *   host ring FILE K S E     marks the ring of [S, E] for K in FILE's rows
 *                            (FILE as above; its query line is passed over)
 *   host groups FILE K S E   prints that ring one group at a time
 *   host group FILE K S E A  marks the group of account A in that ring
 *   host copy FILE           prints FILE again: the query line as it stands, the
 *                            rows read and written
 *
 * A refusal is printed as the listing program prints it: `refused`, the number
 * in 5 columns and the input line in 6, or 0. Exit status 0 for an answer, 1
 * for a refusal, 2 for wrong use, a file that cannot be read or an output that
 * cannot be written.
 */
#include <inttypes.h>
#include <stdio.h>
#include <stdlib.h>
#include <string.h>

#include "rumbleog.h"

enum { QUERY = 16, LINE = 18 };

static int trouble(const char *what)
{
    fprintf(stderr, "host: %s\n", what);
    return 2;
}

static int unwritten(void)
{
    return trouble("cannot write the output");
}

static int refused(uint32_t number, uint64_t line)
{
    if (printf("refused%5" PRIu32 "%6" PRIu64 "\n", number, line) < 0)
        return unwritten();
    return 1;
}

/* The file's bytes, or NULL. */
static uint8_t *contents(const char *name, size_t *length)
{
    FILE *file = fopen(name, "rb");
    uint8_t *bytes = NULL;
    size_t room = 0;
    *length = 0;
    if (file == NULL)
        return NULL;
    for (;;) {
        if (*length == room) {
            uint8_t *more = realloc(bytes, room + 65536);
            if (more == NULL)
                break;
            bytes = more;
            room += 65536;
        }
        size_t got = fread(bytes + *length, 1, room - *length, file);
        *length += got;
        if (got == 0) {
            if (ferror(file))
                break;
            fclose(file);
            return bytes;
        }
    }
    fclose(file);
    free(bytes);
    return NULL;
}

/* Text in, listing text out. */
static int list(const uint8_t *input, size_t input_length)
{
    size_t room = RUMBLEOG_TEXT_FOR(RUMBLEOG_MOST_LISTED);
    uint8_t *output = malloc(room);
    uint64_t line, length;
    int status = 0;
    if (output == NULL)
        return trouble("no memory");
    uint32_t number = rumbleog_list(input, input_length, output, room, &line, &length);
    if (number != RUMBLEOG_OK)
        status = refused(number, line);
    else if (fwrite(output, 1, (size_t)length, stdout) != length)
        status = unwritten();
    free(output);
    return status;
}

/* The rows of an input, in three columns of one allocation. */
struct rows {
    uint16_t *days, *first, *second;
    size_t count;
};

/* Rows by the reader, behind the query line. 0, or the status to end with;
 * the columns are to be freed, by their days. */
static int read_rows(const uint8_t *input, size_t input_length, struct rows *rows)
{
    *rows = (struct rows){NULL, NULL, NULL, 0};
    if (input_length < QUERY)
        return refused(RUMBLEOG_BAD_LINE, 1);
    size_t most = (input_length - QUERY) / LINE + 1;
    uint64_t place, count;
    uint16_t *columns = malloc(3 * most * sizeof *columns);
    if (columns == NULL)
        return trouble("no memory");
    rows->days = columns;
    rows->first = columns + most;
    rows->second = columns + 2 * most;
    uint32_t number = rumbleog_read_table(input + QUERY, input_length - QUERY, rows->days, most,
                                          rows->first, most, rows->second, most, &place, &count);
    if (number != RUMBLEOG_OK)
        return refused(number, place == 0 ? 0 : place + 1);
    rows->count = (size_t)count;
    return 0;
}

/* A call that takes the rows has refused: the place of a row is its line. */
static int rows_refused(uint32_t number, uint64_t place)
{
    int at_row = RUMBLEOG_BAD_DAY <= number && number <= RUMBLEOG_DAY_FALLS;
    return refused(number, at_row ? place + 2 : 0);
}

/* One window's ring, or the group of an account in it: a line for each row, its
 * mark first. */
static int ring(const struct rows *rows, uint16_t k, uint16_t s, uint16_t e,
                const uint16_t *account)
{
    size_t count = rows->count, scratch_length = RUMBLEOG_SCRATCH_FOR(count);
    uint16_t *scratch = malloc(scratch_length * sizeof *scratch);
    uint8_t *marks = malloc(count + 1);
    uint64_t place, ones;
    int status = 0;
    if (scratch == NULL || marks == NULL) {
        status = trouble("no memory");
        goto done;
    }
    uint32_t number;
    if (account == NULL)
        number = rumbleog_window_ring(rows->days, count, rows->first, count, rows->second, count,
                                      k, s, e, marks, count, scratch, scratch_length, &place,
                                      &ones);
    else
        number = rumbleog_mark_group(rows->days, count, rows->first, count, rows->second, count,
                                     k, s, e, *account, marks, count, scratch, scratch_length,
                                     &place, &ones);
    if (number != RUMBLEOG_OK) {
        status = rows_refused(number, place);
        goto done;
    }
    int written = printf("%" PRIu64 " of %zu rows\n", ones, count);
    for (size_t row = 0; row < count && written >= 0; row++)
        written = printf("%" PRIu8 "%5" PRIu16 "%6" PRIu16 "%6" PRIu16 "\n", marks[row],
                         rows->days[row], rows->first[row], rows->second[row]);
    if (written < 0)
        status = unwritten();
done:
    free(scratch);
    free(marks);
    return status;
}

/* One window's ring, one group at a time: its smallest account, its rows. */
static int groups(const struct rows *rows, uint16_t k, uint16_t s, uint16_t e)
{
    size_t count = rows->count, scratch_length = RUMBLEOG_SCRATCH_FOR(count);
    uint16_t *scratch = malloc(scratch_length * sizeof *scratch);
    uint16_t *labels = malloc((count + 1) * sizeof *labels);
    uint64_t place, ones;
    int status = 0;
    if (scratch == NULL || labels == NULL) {
        status = trouble("no memory");
        goto done;
    }
    uint32_t number = rumbleog_label_groups(rows->days, count, rows->first, count, rows->second,
                                            count, k, s, e, labels, count, scratch,
                                            scratch_length, &place, &ones);
    if (number != RUMBLEOG_OK) {
        status = rows_refused(number, place);
        goto done;
    }
    int written = printf("%" PRIu64 " of %zu rows\n", ones, count);
    for (unsigned label = 0; label < RUMBLEOG_ACCOUNTS; label++) {
        int begun = 0;
        for (size_t row = 0; row < count && written >= 0; row++) {
            if (labels[row] != label)
                continue;
            if (!begun)
                written = printf("group of %u\n", label);
            begun = 1;
            if (written >= 0)
                written = printf("%5" PRIu16 "%6" PRIu16 "%6" PRIu16 "\n", rows->days[row],
                                 rows->first[row], rows->second[row]);
        }
    }
    if (written < 0)
        status = unwritten();
done:
    free(scratch);
    free(labels);
    return status;
}

/* The query line as it is, then the rows by the writer: the input again. */
static int copy(const uint8_t *input, const struct rows *rows)
{
    size_t count = rows->count, room = QUERY + RUMBLEOG_TABLE_TEXT_FOR(count);
    uint8_t *text = malloc(room);
    uint64_t place, length;
    int status = 0;
    if (text == NULL)
        return trouble("no memory");
    memcpy(text, input, QUERY);
    uint32_t number = rumbleog_write_table(rows->days, count, rows->first, count, rows->second,
                                           count, text + QUERY, room - QUERY, &place, &length);
    if (number != RUMBLEOG_OK)
        status = refused(number, place);
    else if (fwrite(text, 1, QUERY + (size_t)length, stdout) != QUERY + length)
        status = unwritten();
    free(text);
    return status;
}

/* A number up to 65,535 in an argument. */
static int argument(const char *text, uint16_t *value)
{
    char *end;
    unsigned long number = strtoul(text, &end, 10);
    if (*text < '0' || *text > '9' || *end != '\0' || number > 65535)
        return 0;
    *value = (uint16_t)number;
    return 1;
}

int main(int argc, char **argv)
{
    uint16_t k, s, e, account;
    size_t length;
    int status;
    int lists = argc == 3 && strcmp(argv[1], "list") == 0;
    int copies = argc == 3 && strcmp(argv[1], "copy") == 0;
    int rings = argc == 6 && strcmp(argv[1], "ring") == 0;
    int parts = argc == 6 && strcmp(argv[1], "groups") == 0;
    int part = argc == 7 && strcmp(argv[1], "group") == 0 && argument(argv[6], &account);
    if (!lists && !copies &&
        !((rings || parts || part) && argument(argv[3], &k) && argument(argv[4], &s) &&
          argument(argv[5], &e)))
        return trouble("use: host list FILE, host ring FILE K S E, host groups FILE K S E, "
                       "host group FILE K S E A, or host copy FILE");
    uint8_t *input = contents(argv[2], &length);
    if (input == NULL)
        return trouble("cannot read the file");
    if (lists) {
        status = list(input, length);
    } else {
        struct rows rows;
        status = read_rows(input, length, &rows);
        if (status == 0 && copies)
            status = copy(input, &rows);
        else if (status == 0 && parts)
            status = groups(&rows, k, s, e);
        else if (status == 0)
            status = ring(&rows, k, s, e, part ? &account : NULL);
        free(rows.days);
    }
    free(input);
    /* What was printed may still lie in stdout's buffer. */
    if (fclose(stdout) != 0 && status != 2)
        status = unwritten();
    return status;
}
