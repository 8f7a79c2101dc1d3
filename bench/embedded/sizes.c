/* How long an office takes to be made and how much memory it needs: sizes, with its lines on standard input.
 *
 * It prints how many rows there are, the milliseconds of a processor in which the lines are answered, the rows are read, and they
 * are added and loaded, and the KiB that the office takes of malloc. */
#define _POSIX_C_SOURCE 200809L
#include "rbac.h"
#include "timing.h"
#include <malloc.h>
#include <string.h>

/* How many rows are read at once. */
enum { ROWS = 64 };

/* The rows of an office, one after the other: a row's names are not separated. */
typedef struct { uint32_t table; rbac_row row; size_t at; } Kept;

static rbac_office office = RBAC_OFFICE_NONE;
static Kept *kept;
static char *names;
static size_t rows, used;

static void need(uint32_t code, const char *what)
{
    if (code != RBAC_DONE)
        fail("sizes", what);
}

/* The time that this process has used of a processor, in milliseconds. */
static double spent(void)
{
    struct timespec at;

    clock_gettime(CLOCK_PROCESS_CPUTIME_ID, &at);
    return at.tv_sec * 1e3 + at.tv_nsec / 1e6;
}

static size_t allocated(void)
{
    struct mallinfo2 info = mallinfo2();

    return info.uordblks + info.hblkhd;
}

static void answer_lines(char **lines, const size_t *lengths, size_t count)
{
    static char out[1 << 16];

    for (size_t at = 0; at < count; at++) {
        size_t length;

        need(rbac_answer(&office, lines[at], lengths[at], out, sizeof out, &length), "a line");
        if (strncmp(out, "{\"ok\":true", 10) != 0)
            fail("a line was refused", lines[at]);
    }
}

static void read_rows(void)
{
    for (uint32_t table = 0; table < RBAC_TABLES; table++)
        for (size_t index = 0, count;; index += count) {
            rbac_row read[ROWS];

            need(rbac_rows(&office, table, index, names + used, ROWS * RBAC_LONGEST_ROW, read, ROWS, &count), "the rows");
            if (count == 0)
                break;
            for (size_t at = 0; at < count; at++) {
                kept[rows++] = (Kept){table, read[at], used};
                used += read[at].first + read[at].second + read[at].third;
            }
        }
}

static void load_rows(void)
{
    for (size_t at = 0; at < rows; at++) {
        const char *first = names + kept[at].at;
        rbac_row row = kept[at].row;

        need(rbac_add_row(&office, kept[at].table, first, row.first, first + row.first, row.second, first + row.first + row.second,
                 row.third, row.number), "an added row");
    }
    need(rbac_load(&office, 0), "the load");
}

/* Reads standard input, and returns how many lines it has. */
static size_t read_lines(char **lines, size_t *lengths, size_t most)
{
    size_t count = 0, room = 0;
    char *line = NULL;
    ssize_t length;

    for (; count < most && (length = getline(&line, &room, stdin)) > 0; line = NULL, room = 0) {
        lines[count] = line;
        lengths[count++] = (size_t)(line[length - 1] == '\n' ? length - 1 : length);
    }
    return count;
}

int main(void)
{
    enum { MOST_LINES = 200000, MOST_ROWS = 800000 };
    static char *lines[MOST_LINES];
    static size_t lengths[MOST_LINES];
    size_t count = read_lines(lines, lengths, MOST_LINES), before;
    double start, answered, saved, loaded;

    kept = malloc(MOST_ROWS * sizeof *kept);
    names = malloc((size_t)(MOST_ROWS + ROWS) * RBAC_LONGEST_ROW);
    if (kept == NULL || names == NULL)
        fail("sizes", "no memory");
    need(rbac_open(&office), "an office");
    start = spent();
    answer_lines(lines, lengths, count);
    answered = spent() - start;
    start = spent();
    read_rows();
    saved = spent() - start;
    rbac_close(&office);
    before = allocated();
    need(rbac_open(&office), "an office");
    start = spent();
    load_rows();
    loaded = spent() - start;
    printf("%zu %.1f %.1f %.1f %zu\n", rows, answered, saved, loaded, (allocated() - before) / 1024);
    rbac_close(&office);
    return 0;
}
