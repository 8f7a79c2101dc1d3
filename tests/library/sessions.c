/* Sessions come and go in one office, each with a name of its own: for tests/library/memory.py. Takes numbers of sessions in
 * rising order, and prints the most kilobytes that the process has used after each. */
#include "rbac.h"
#include <stdarg.h>
#include <stdio.h>
#include <stdlib.h>
#include <string.h>

static rbac_office office = RBAC_OFFICE_NONE;

/* Has the office do a line. */
static void command(const char *form, ...)
{
    char line[256], out[64];
    size_t length;
    va_list words;

    va_start(words, form);
    vsnprintf(line, sizeof line, form, words);
    va_end(words);
    if (rbac_answer(&office, line, strlen(line), out, sizeof out, &length) != RBAC_DONE || length != 11
        || memcmp(out, "{\"ok\":true}", 11) != 0) {
        fprintf(stderr, "%s\n", line);
        exit(1);
    }
}

/* One session: it may do what its role may, and ends. Every tenth ends since its user is locked. */
static void pass(int number)
{
    char name[32];

    snprintf(name, sizeof name, "session %d", number);
    command("{\"fn\":\"createSession\",\"user\":\"ann\",\"roles\":[\"clerk\"],\"session\":\"%s\"}", name);
    if (rbac_check(&office, name, strlen(name), "open", 4, "door", 4) != 1)
        exit(2);
    if (number % 10 != 0) {
        command("{\"fn\":\"deleteSession\",\"user\":\"ann\",\"session\":\"%s\"}", name);
    } else {
        command("{\"fn\":\"lockUserAccount\",\"user\":\"ann\"}");
        command("{\"fn\":\"unlockUserAccount\",\"user\":\"ann\"}");
    }
    if (rbac_check(&office, name, strlen(name), "open", 4, "door", 4) != -26)
        exit(3);
}

/* Prints the most kilobytes that the process has used. */
static void print_kilobytes(void)
{
    char line[256];
    long kilobytes = -1;
    FILE *file = fopen("/proc/self/status", "r");

    while (file != NULL && fgets(line, sizeof line, file) != NULL)
        if (sscanf(line, "VmHWM: %ld", &kilobytes) == 1)
            break;
    if (kilobytes < 0)
        exit(4);
    fclose(file);
    printf("%ld\n", kilobytes);
}

int main(int count, char **words)
{
    int number = 0;

    if (rbac_open(&office) != RBAC_DONE)
        return 5;
    command("{\"fn\":\"addUser\",\"user\":\"ann\"}");
    command("{\"fn\":\"addRole\",\"role\":\"clerk\"}");
    command("{\"fn\":\"addPermObj\",\"object\":\"door\"}");
    command("{\"fn\":\"addPermission\",\"object\":\"door\",\"operation\":\"open\"}");
    command("{\"fn\":\"grantPermission\",\"object\":\"door\",\"operation\":\"open\",\"role\":\"clerk\"}");
    command("{\"fn\":\"assignUser\",\"user\":\"ann\",\"role\":\"clerk\"}");
    for (int at = 1; at < count; at++) {
        for (int last = atoi(words[at]); number < last; number++)
            pass(number);
        print_kilobytes();
    }
    rbac_close(&office);
    return 0;
}
