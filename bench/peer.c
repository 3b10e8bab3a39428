/* A peer for bench/serve: replies the bytes of a file to each request that ends with an empty line, over kept connections.
   One process for each processor waits by epoll and accepts from one listening socket. It reads no header, opens no file and writes
   no log, so it does less for each request than any web server does.

   usage: peer PORT FILE PROCESSES     (it ends when its standard input ends) */
#define _GNU_SOURCE
#include <arpa/inet.h>
#include <fcntl.h>
#include <netinet/tcp.h>
#include <signal.h>
#include <stdio.h>
#include <stdlib.h>
#include <string.h>
#include <sys/epoll.h>
#include <sys/socket.h>
#include <unistd.h>

enum { MOST_LINKS = 4096, MOST_BYTES = 65536 };
static char body[MOST_BYTES];
static size_t length;
/* of each connection, how many bytes of the empty line that ends a request have come */
static unsigned char seen[MOST_LINKS];

static void die(const char *what) {
    perror(what);
    exit(1);
}

static void answer(int link) {
    for (size_t sent = 0; sent < length;) {
        ssize_t n = send(link, body + sent, length - sent, MSG_NOSIGNAL);
        if (n < 0) return;
        sent += (size_t)n;
    }
}

/* Reads what has come, and answers each request that ends in it. */
static void take(int poll, int link) {
    static const char end[] = "\r\n\r\n";
    char text[MOST_BYTES];
    ssize_t n = recv(link, text, sizeof text, 0);
    if (n <= 0) {
        epoll_ctl(poll, EPOLL_CTL_DEL, link, NULL);
        close(link);
        return;
    }
    for (ssize_t i = 0; i < n; i++) {
        seen[link] = text[i] == end[seen[link]] ? seen[link] + 1 : text[i] == '\r';
        if (seen[link] == 4) {
            seen[link] = 0;
            answer(link);
        }
    }
}

static void serve(int door) {
    int poll = epoll_create1(0), one = 1;
    struct epoll_event event = {.events = EPOLLIN | EPOLLEXCLUSIVE, .data.fd = door}, events[64];
    if (poll < 0 || epoll_ctl(poll, EPOLL_CTL_ADD, door, &event) < 0) die("epoll");
    for (;;) {
        int n = epoll_wait(poll, events, 64, -1);
        for (int i = 0; i < n; i++) {
            if (events[i].data.fd != door) {
                take(poll, events[i].data.fd);
                continue;
            }
            int link = accept(door, NULL, NULL);
            if (link < 0) continue;
            if (link >= MOST_LINKS) { close(link); continue; }
            setsockopt(link, IPPROTO_TCP, TCP_NODELAY, &one, sizeof one);
            seen[link] = 0;
            event = (struct epoll_event){.events = EPOLLIN, .data.fd = link};
            epoll_ctl(poll, EPOLL_CTL_ADD, link, &event);
        }
    }
}

int main(int count, char **words) {
    if (count != 4) die("usage: peer PORT FILE PROCESSES");
    FILE *file = fopen(words[2], "rb");
    if (!file) die(words[2]);
    length = fread(body, 1, sizeof body, file);
    int door = socket(AF_INET, SOCK_STREAM, 0), one = 1;
    struct sockaddr_in address = {.sin_family = AF_INET, .sin_port = htons((unsigned short)atoi(words[1]))};
    address.sin_addr.s_addr = htonl(INADDR_LOOPBACK);
    setsockopt(door, SOL_SOCKET, SO_REUSEADDR, &one, sizeof one);
    if (bind(door, (struct sockaddr *)&address, sizeof address) < 0 || listen(door, 1024) < 0) die("listen");
    fcntl(door, F_SETFL, O_NONBLOCK);
    for (int i = atoi(words[3]); i > 0; i--) {
        if (fork() == 0) serve(door);
    }
    puts("ready");
    fflush(stdout);
    while (getchar() != EOF) {}
    signal(SIGTERM, SIG_IGN);
    kill(0, SIGTERM);
    return 0;
}
