/* Answers the lines of standard input, for tests/library. The lines of all languages are the same:
 *
 *   {..}       a line of docs/reference/api.md: prints the answer
 *   ?A\tB\tC   a decision for the session A, the operation B and the object C: prints what rbac_check returns
 *   !A\tB\tC   a decision for the user A, the operation B and the object C: prints what rbac_check_user returns
 *   %KIND\t..  prints the sets that a command would violate, by semicolons, each with those who would violate it or with its roles,
 *              by commas; or minus the code of the refusal. KIND is assignment (a user and a role), activation (a user, a session
 *              and a role), creation (a user and roles), users or sessions (two roles of an inheritance)
 *   #          prints the revision
 *   =          saves the office, loads the rows into another one, which is used from then on, and prints how many rows
 */
#include "rbac.h"
#include <inttypes.h>
#include <stdio.h>
#include <stdlib.h>
#include <string.h>

static rbac_office office = RBAC_OFFICE_NONE;

static void need(uint32_t code, const char *what)
{
    if (code != RBAC_DONE) {
        fprintf(stderr, "%s: %" PRIu32 "\n", what, code);
        exit(1);
    }
}

/* Prints the answer to a line. The buffer is short, so that many answers need rbac_kept_answer. */
static void answer(const char *line, size_t length)
{
    char few[64], *out = few;
    size_t count;
    uint32_t code = rbac_answer(&office, line, length, few, sizeof few, &count);

    if (code == RBAC_SHORT) {
        out = malloc(count);
        if (out == NULL)
            exit(1);
        code = rbac_kept_answer(&office, out, count, &count);
    }
    need(code, "the answer");
    fwrite(out, 1, count, stdout);
    putchar('\n');
    if (out != few)
        free(out);
}

typedef int32_t decision_of(const rbac_office *, const void *, size_t, const void *, size_t, const void *, size_t);

/* Prints the decision that three names ask for, between which there are tabs. */
static void decide(decision_of *decision_about, const char *names, size_t length)
{
    const char *end = names + length, *operation = memchr(names, '\t', length), *object;

    if (operation == NULL || (object = memchr(operation + 1, '\t', end - operation - 1)) == NULL)
        exit(2);
    printf("%" PRId32 "\n", decision_about(&office, names, operation - names, operation + 1, object - operation - 1, object + 1,
        end - object - 1));
}

enum { WORDS = 40, ROWS = 3 };

/* Asks for some of the sets that a command would violate, of the kind and with the names that the words have. */
static uint32_t find_conflicts(const char *const *words, const size_t *lengths, size_t number, size_t index, char *out, rbac_row *sets,
    size_t *count, size_t *total)
{
    const size_t room = ROWS * 128;

    if (strcmp(words[0], "assignment") == 0)
        return rbac_assignment_conflicts(&office, words[1], lengths[1], words[2], lengths[2], index, out, room, sets, ROWS, count, total);
    if (strcmp(words[0], "activation") == 0)
        return rbac_activation_conflicts(&office, words[1], lengths[1], words[2], lengths[2], words[3], lengths[3], index, out, room,
            sets, ROWS, count, total);
    if (strcmp(words[0], "creation") == 0) {
        char roles[WORDS * 64];
        size_t at = 0;

        for (size_t word = 2; word < number; at += lengths[word++])
            memcpy(roles + at, words[word], lengths[word]);
        return rbac_creation_conflicts(&office, words[1], lengths[1], roles, lengths + 2, number - 2, index, out, room, sets, ROWS,
            count, total);
    }
    return rbac_inheritance_conflicts(&office, strcmp(words[0], "sessions") == 0, words[1], lengths[1], words[2], lengths[2], index,
        out, room, sets, ROWS, count, total);
}

/* Prints the sets that a command would violate. A set with several roles has a row for each. */
static void say_conflicts(char *line, size_t length)
{
    const char *words[WORDS], *last = "";
    size_t lengths[WORDS], number = 0, count, last_length = 0;
    char out[ROWS * 128], name[64];

    line[length] = 0;
    for (char *word = line; word != NULL && number < WORDS; number++) {
        char *tab = strchr(word, '\t');

        words[number] = word;
        lengths[number] = tab != NULL ? (size_t)(tab - word) : strlen(word);
        if (tab != NULL)
            *tab++ = 0;
        word = tab;
    }
    for (size_t index = 0, total = 1; index < total; index += count) {
        rbac_row sets[ROWS];
        const char *at = out;
        uint32_t code = find_conflicts(words, lengths, number, index, out, sets, &count, &total);

        if (code != RBAC_DONE) {
            printf("-%" PRIu32, code);
            break;
        }
        for (size_t row = 0; row < count; at += sets[row].first + sets[row].second, row++) {
            int is_same = sets[row].first == last_length && memcmp(at, last, last_length) == 0;

            if (!is_same)
                printf("%s%.*s", last_length != 0 ? ";" : "", (int)sets[row].first, at);
            if (sets[row].second != 0)
                printf(",%.*s", (int)sets[row].second, at + sets[row].first);
            last_length = sets[row].first;
            last = memcpy(name, at, last_length);
        }
    }
    putchar('\n');
}

static void say_revision(void)
{
    uint64_t revision;

    need(rbac_revision(&office, &revision), "the revision");
    printf("%" PRIu64 "\n", revision);
}

/* Moves all rows into a new office. They are added from the last table to the first. */
static void save_and_load(void)
{
    rbac_office other = RBAC_OFFICE_NONE;
    char names[RBAC_LONGEST_ROW];
    rbac_row row;
    uint64_t revision;
    unsigned long rows = 0;
    uint32_t code;

    need(rbac_open(&other), "another office");
    for (uint32_t table = RBAC_TABLES; table-- > 0;) {
        size_t index = 0;
        for (; (code = rbac_row_at(&office, table, index, names, sizeof names, &row)) == RBAC_DONE; index++) {
            need(rbac_add_row(&other, table, names, row.first, names + row.first, row.second, names + row.first + row.second,
                row.third, row.number), "a row");
            rows++;
        }
        if (code != RBAC_ABSENT)
            need(code, "the rows");
    }
    need(rbac_revision(&office, &revision), "the revision");
    need(rbac_load(&other, revision), "the load");
    rbac_close(&office);
    office = other;
    printf("%lu\n", rows);
}

int main(void)
{
    char *line = NULL;
    size_t room = 0;
    ssize_t length;

    need(rbac_open(&office), "an office");
    while ((length = getline(&line, &room, stdin)) >= 0) {
        if (length > 0 && line[length - 1] == '\n')
            length--;
        if (length > 0 && line[0] == '?')
            decide(rbac_check, line + 1, length - 1);
        else if (length > 0 && line[0] == '!')
            decide(rbac_check_user, line + 1, length - 1);
        else if (length > 0 && line[0] == '%')
            say_conflicts(line + 1, length - 1);
        else if (length == 1 && line[0] == '#')
            say_revision();
        else if (length == 1 && line[0] == '=')
            save_and_load();
        else
            answer(line, length);
    }
    rbac_close(&office);
    free(line);
    return office.at != NULL;
}
