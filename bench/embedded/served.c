/* Times decisions and commands of a server of rbac, as quick.c does: served PORT. Each request has its own connection, since the
 * server closes it. */
#define _POSIX_C_SOURCE 200809L
#include "timing.h"
#include <arpa/inet.h>
#include <string.h>
#include <sys/socket.h>
#include <unistd.h>

enum { ROUNDS = 10, COMMAND_ROUNDS = 3 };

static struct sockaddr_in server = {.sin_family = AF_INET};
static char request[DECISIONS][256];
static char change[2][256];
static long granted;

/* Writes the request for a function with this body. */
static void write_request(char *into, const char *function, const char *body)
{
    sprintf(into, "POST /v1/%s HTTP/1.1\r\nHost: 127.0.0.1\r\nContent-Length: %zu\r\n\r\n%s", function, strlen(body), body);
}

/* Sends a request, and returns whether its answer, which has status 200, contains a text. */
static int ask(const char *text, const char *wanted)
{
    char answer[1024];
    size_t length = 0;
    ssize_t more;
    int at = socket(AF_INET, SOCK_STREAM, 0);

    if (at < 0 || connect(at, (struct sockaddr *)&server, sizeof server) != 0 || write(at, text, strlen(text)) < 0)
        fail("the server", "no connection");
    while ((more = read(at, answer + length, sizeof answer - 1 - length)) > 0)
        length += (size_t)more;
    close(at);
    answer[length] = '\0';
    if (strncmp(answer, "HTTP/1.1 200", 12) != 0)
        fail("the server", answer);
    return strstr(answer, wanted) != NULL;
}

static void decide(int at)
{
    granted += ask(request[at], "\"value\":true");
}

static void command(int at)
{
    if (!ask(change[at % 2], "{\"ok\":true}"))
        fail("the server", "a command was refused");
}

int main(int count, char **words)
{
    char body[128];
    double decision;

    if (count != 2)
        return 2;
    server.sin_port = htons((uint16_t)atoi(words[1]));
    server.sin_addr.s_addr = htonl(INADDR_LOOPBACK);
    for (int at = 0; at < DECISIONS; at++) {
        sprintf(body, "{\"session\":\"s%d\",\"operation\":\"read\",\"object\":\"o%d\"}", at * 37 % 1000, at * 91 % 1000);
        write_request(request[at], "checkAccess", body);
    }
    write_request(change[0], "addUser", "{\"user\":\"extra\"}");
    write_request(change[1], "deleteUser", "{\"user\":\"extra\"}");
    decision = per_call(ROUNDS, DECISIONS, decide);
    printf("%.0f %.0f %ld\n", decision, per_call(COMMAND_ROUNDS, COMMANDS, command), granted / ROUNDS);
    return 0;
}
