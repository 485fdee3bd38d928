/* Frames over a connection, as plain loops of the system's calls: what bench/frames compares sia_bench with.

     frames give ADDR SIZE N   waits on ADDR for one connection, and sends N frames with bodies of SIZE bytes
     frames take ADDR LIMIT    connects to ADDR, and takes frames with bodies of at most LIMIT bytes to the end

   A frame is 8 bytes of length, little-endian, and the body. Each is sent in one write, and taken by a read for its length
   and reads for its body, as without a buffer. ADDR is an IPv4 address, a colon and a port. */

#include <arpa/inet.h>
#include <netinet/tcp.h>
#include <stdint.h>
#include <stdio.h>
#include <stdlib.h>
#include <string.h>
#include <sys/socket.h>
#include <time.h>
#include <unistd.h>

static void fail(const char *what) {
    perror(what);
    exit(2);
}

static uint64_t now(void) {
    struct timespec at;
    clock_gettime(CLOCK_MONOTONIC, &at);
    return (uint64_t)at.tv_sec * 1000000000u + (uint64_t)at.tv_nsec;
}

static struct sockaddr_in address(char *text) {
    struct sockaddr_in found = {.sin_family = AF_INET};
    char *colon = strrchr(text, ':');
    if (!colon) fail("an address without a port");
    *colon = 0;
    found.sin_port = htons((uint16_t)atoi(colon + 1));
    if (inet_pton(AF_INET, text, &found.sin_addr) != 1) fail(text);
    return found;
}

static void send_all(int link, const char *bytes, size_t size) {
    while (size > 0) {
        ssize_t sent = write(link, bytes, size);
        if (sent <= 0) fail("write");
        bytes += sent;
        size -= (size_t)sent;
    }
}

/* How many of the bytes came before the end. */
static size_t take_all(int link, char *bytes, size_t size) {
    size_t taken = 0;
    while (taken < size) {
        ssize_t came = read(link, bytes + taken, size - taken);
        if (came < 0) fail("read");
        if (came == 0) break;
        taken += (size_t)came;
    }
    return taken;
}

static void set_no_delay(int link) {
    int on = 1;
    if (setsockopt(link, IPPROTO_TCP, TCP_NODELAY, &on, sizeof on)) fail("setsockopt");
}

static void give(char *where, size_t size, uint64_t count) {
    struct sockaddr_in at = address(where);
    int door = socket(AF_INET, SOCK_STREAM, 0), on = 1;
    setsockopt(door, SOL_SOCKET, SO_REUSEADDR, &on, sizeof on);
    if (bind(door, (struct sockaddr *)&at, sizeof at) || listen(door, 1)) fail("listen");
    int link = accept(door, NULL, NULL);
    if (link < 0) fail("accept");
    set_no_delay(link);
    char *frame = malloc(8 + size);
    if (!frame) fail("malloc");
    for (int place = 0; place < 8; place++) frame[place] = (char)((uint64_t)size >> (8 * place));
    memset(frame + 8, 7, size);
    uint64_t start = now();
    for (uint64_t sent = 0; sent < count; sent++) send_all(link, frame, 8 + size);
    printf("give %llu\nframes %llu\n", (unsigned long long)(now() - start), (unsigned long long)count);
    close(link);
}

static void take(char *where, uint64_t limit) {
    struct sockaddr_in at = address(where);
    int link = socket(AF_INET, SOCK_STREAM, 0);
    if (connect(link, (struct sockaddr *)&at, sizeof at)) fail("connect");
    set_no_delay(link);
    unsigned char prefix[8];
    uint64_t frames = 0, bytes = 0, start = now();
    while (take_all(link, (char *)prefix, 8) == 8) {
        uint64_t size = 0;
        for (int place = 7; place >= 0; place--) size = size << 8 | prefix[place];
        if (size > limit) fail("a frame above the limit");
        char *body = malloc(size ? size : 1); /* a new body for each frame, as the caller keeps it */
        if (!body || take_all(link, body, size) != size) fail("a frame that is cut off");
        bytes += size;
        frames++;
        free(body);
    }
    printf("take %llu\nframes %llu\nbytes %llu\n", (unsigned long long)(now() - start), (unsigned long long)frames, (unsigned long long)bytes);
}

int main(int count, char **words) {
    if (count == 5 && !strcmp(words[1], "give")) give(words[2], strtoull(words[3], NULL, 10), strtoull(words[4], NULL, 10));
    else if (count == 4 && !strcmp(words[1], "take")) take(words[2], strtoull(words[3], NULL, 10));
    else {
        fprintf(stderr, "usage: frames give ADDR SIZE N | frames take ADDR LIMIT\n");
        return 1;
    }
    return 0;
}
