// Answers each POST on one connection after the other with a fixed text: what sockets and a client allow by themselves.
// usage: fixed_http PORT    on 127.0.0.1, until it is stopped
#define _GNU_SOURCE
#include <arpa/inet.h>
#include <netinet/tcp.h>
#include <stdio.h>
#include <stdlib.h>
#include <string.h>
#include <sys/socket.h>
#include <unistd.h>

enum { ROOM = 1 << 16 };

// The body of an ALLOC's answer.
static const char body[] = "{\"code\":\"A00\",\"first\":20002,\"lines\":[\"A00 GRANTED\",\"  CLASS - SC1 - SG1\","
                           "\"  EXTENT V00001 20000 1\"],\"place\":20002}";

static char answer[256], asked[ROOM], answers[ROOM * 4];
static size_t size;

// So many answers as there are requests among the bytes.
static size_t answered(size_t count)
{
    size_t end = 0;
    char *at = asked;
    while ((at = memmem(at, asked + count - at, "POST ", 5)) && end + size <= sizeof answers) {
        memcpy(answers + end, answer, size);
        end += size;
        at += 5;
    }
    return end;
}

static void serve(int link)
{
    for (;;) {
        ssize_t count = read(link, asked, sizeof asked);
        if (count <= 0) return;
        size_t end = answered(count);
        if (write(link, answers, end) != (ssize_t)end) return;
    }
}

int main(int count_of_words, char **words)
{
    if (count_of_words < 2) return 2;
    int door = socket(AF_INET, SOCK_STREAM, 0), on = 1;
    struct sockaddr_in place = {.sin_family = AF_INET, .sin_port = htons(atoi(words[1])), .sin_addr.s_addr = htonl(INADDR_LOOPBACK)};
    setsockopt(door, SOL_SOCKET, SO_REUSEADDR, &on, sizeof on);
    if (bind(door, (struct sockaddr *)&place, sizeof place) || listen(door, 16)) return 1;
    size = snprintf(answer, sizeof answer, "HTTP/1.1 200 OK\r\nContent-Type: application/json\r\nContent-Length: %zu\r\n\r\n%s", strlen(body), body);
    for (;;) {
        int link = accept(door, NULL, NULL);
        setsockopt(link, IPPROTO_TCP, TCP_NODELAY, &on, sizeof on);
        serve(link);
        close(link);
    }
}
