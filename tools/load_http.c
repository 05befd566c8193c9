// Asks a served desk for many allocations over one connection, as load_http.py does, and takes less of the time itself.
// usage: load_http PORT COUNT [PIPELINED]    with `smsctl serve PORT 1` running; at most 40,000 requests, for at most 60 seconds
#define _GNU_SOURCE
#include <arpa/inet.h>
#include <netinet/tcp.h>
#include <stdio.h>
#include <stdlib.h>
#include <string.h>
#include <sys/socket.h>
#include <time.h>
#include <unistd.h>

enum { MOST_REQUESTS = 40000, MOST_AT_ONCE = 256, ROOM = 1 << 18 };

static char asked[ROOM], answered[ROOM + 1];
static size_t held;

static const char deck[] =
    "version = 1\n[storclass.SC1]\n[storgroup.SG1.volume.V00001]\ntracks = 982800\n[routine]\n"
    "storclass = \"PROC STORCLAS SET &STORCLAS = 'SC1' END\"\nstorgroup = \"PROC STORGRP SET &STORGRP = 'SG1' END\"\n";

static void fail(const char *why)
{
    fprintf(stderr, "%s\n", why);
    exit(1);
}

// The message of a path with a body, behind those that are there.
static size_t put_message(size_t at, const char *path, const char *body)
{
    return at + sprintf(asked + at, "POST %s HTTP/1.1\r\nContent-Length: %zu\r\n\r\n%s", path, strlen(body), body);
}

static void send_all(int link, size_t count)
{
    for (size_t at = 0; at < count;) {
        ssize_t taken = write(link, asked + at, count - at);
        if (taken <= 0) fail("the connection ended");
        at += taken;
    }
}

// The end of the answer at the front of a text, or nothing where it isn't there whole.
static char *behind_answer(char *text, char *end)
{
    *end = 0;
    char *body = memmem(text, end - text, "\r\n\r\n", 4);
    if (!body) return NULL;
    char *size = memmem(text, body - text, "Content-Length: ", 16);
    if (!size) fail("an answer has no length");
    body += 4 + atoi(size + 16);
    return body <= end ? body : NULL;
}

// Takes so many answers, and says how many of them grant.
static int take_answers(int link, int wanted)
{
    int granted = 0;
    while (wanted > 0) {
        char *at = answered, *end = answered + held, *behind;
        while (wanted > 0 && (behind = behind_answer(at, end))) {
            granted += memmem(at, behind - at, "\"A00\"", 5) != NULL;
            at = behind;
            wanted--;
        }
        held = end - at;
        memmove(answered, at, held);
        if (wanted == 0) break;
        ssize_t count = read(link, answered + held, ROOM - held);
        if (count <= 0) fail("the connection ended");
        held += count;
    }
    return granted;
}

static int connected(int port)
{
    int link = socket(AF_INET, SOCK_STREAM, 0), on = 1;
    struct sockaddr_in place = {.sin_family = AF_INET, .sin_port = htons(port), .sin_addr.s_addr = htonl(INADDR_LOOPBACK)};
    if (connect(link, (struct sockaddr *)&place, sizeof place)) fail("nobody listens");
    setsockopt(link, IPPROTO_TCP, TCP_NODELAY, &on, sizeof on);
    return link;
}

static double seconds(void)
{
    struct timespec now;
    clock_gettime(CLOCK_MONOTONIC, &now);
    return now.tv_sec + now.tv_nsec / 1e9;
}

int main(int count_of_words, char **words)
{
    if (count_of_words < 3) fail("usage: load_http PORT COUNT [PIPELINED]");
    int count = atoi(words[2]), at_once = count_of_words > 3 ? atoi(words[3]) : 1;
    if (count > MOST_REQUESTS) count = MOST_REQUESTS;
    if (at_once < 1 || at_once > MOST_AT_ONCE) at_once = 1;
    int link = connected(atoi(words[1])), asks = 0, granted = 0;
    send_all(link, put_message(0, "/admin/1/activate", deck));
    take_answers(link, 1);
    double begin = seconds();
    while (asks < count && seconds() - begin < 60) {
        size_t end = 0;
        int some = 0;
        for (; some < at_once && asks < count; some++, asks++) {
            char path[64];
            snprintf(path, sizeof path, "/job/JOB%d/%d/alloc/A.D%d", asks % 10, asks + 1, asks);
            end = put_message(end, path, "{\"SPACE\":\"(TRK,(1,1))\"}");
        }
        send_all(link, end);
        granted += take_answers(link, some);
    }
    double taken = seconds() - begin;
    printf("%d requests, %d granted, %.2f s, %.0f a second\n", asks, granted, taken, asks / taken);
    return 0;
}
