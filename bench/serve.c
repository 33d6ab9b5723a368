/* Two measures for serve.sh.
 *
 * load PORT CONNECTIONS FILE: posts the messages of FILE, each behind its length in four octets, over so many connections that are kept,
 * each of them with the next message that nobody has posted yet. Prints how many were answered with 200, the seconds that it took, the
 * times of a reply in milliseconds that half and 99 of 100 stay below, and those that half of the first and of the last tenth stay below.
 *
 * bare PORT FILE SIZE: answers each request, over any number of connections, with SIZE octets, behind two records that are written to
 * FILE and synced, one request at a time: what a service that keeps each change must at least do.
 *
 * Built by serve.sh: cc -O2 -pthread.
 */
#include <arpa/inet.h>
#include <fcntl.h>
#include <netinet/in.h>
#include <netinet/tcp.h>
#include <pthread.h>
#include <stdatomic.h>
#include <stdio.h>
#include <stdlib.h>
#include <string.h>
#include <strings.h>
#include <sys/socket.h>
#include <time.h>
#include <unistd.h>

enum { HEAD = 8192, BODY = 131072, MOST = 100000, RECORD = 600 };

static void fail(const char *what) {
    perror(what);
    exit(1);
}

static double now(void) {
    struct timespec t;
    clock_gettime(CLOCK_MONOTONIC, &t);
    return t.tv_sec + t.tv_nsec / 1e9;
}

static struct sockaddr_in local(int port) {
    struct sockaddr_in at = {.sin_family = AF_INET, .sin_port = htons(port)};
    at.sin_addr.s_addr = htonl(INADDR_LOOPBACK);
    return at;
}

static void write_all(int to, const char *octets, size_t length) {
    while (length > 0) {
        ssize_t count = write(to, octets, length);
        if (count <= 0) fail("write");
        octets += count;
        length -= count;
    }
}

/* Reads one message of HTTP; gives the length of its head, or 0 at the end. The first octets of the next one may not have come. */
static size_t read_message(int from, char *buffer) {
    size_t have = 0, head = 0, whole = 0;
    for (;;) {
        ssize_t count = read(from, buffer + have, HEAD + BODY - have);
        if (count <= 0) return 0;
        have += count;
        buffer[have] = 0;
        if (head == 0) {
            char *end = strstr(buffer, "\r\n\r\n");
            if (end == NULL) continue;
            head = end - buffer + 4;
            char *field = strcasestr(buffer, "\r\ncontent-length:");
            whole = head + (field && field < end ? strtoul(field + 17, NULL, 10) : 0);
        }
        if (have >= whole) return head;
    }
}

/* ---- load */

static struct { char *octets; size_t length; double took; } messages[MOST];
static int message_count, port;
static atomic_int next_message, answered;

static void read_messages(const char *path) {
    FILE *file = fopen(path, "rb");
    unsigned char size[4];
    if (!file) fail(path);
    while (message_count < MOST && fread(size, 1, 4, file) == 4) {
        size_t length = (size_t)size[0] << 24 | size[1] << 16 | size[2] << 8 | size[3];
        char *text = malloc(HEAD + length);
        int head = sprintf(text, "POST /.well-known/cmp HTTP/1.1\r\nHost: localhost\r\nContent-Type: application/pkixcmp\r\nContent-Length: %zu\r\n\r\n", length);
        if (fread(text + head, 1, length, file) != length) fail("read");
        messages[message_count].octets = text;
        messages[message_count++].length = head + length;
    }
    fclose(file);
}

static void *post(void *unused) {
    char *buffer = malloc(HEAD + BODY + 1);
    struct sockaddr_in at = local(port);
    int one = 1, link = socket(AF_INET, SOCK_STREAM, 0);
    setsockopt(link, IPPROTO_TCP, TCP_NODELAY, &one, sizeof one);
    if (connect(link, (struct sockaddr *)&at, sizeof at) < 0) fail("connect");
    for (;;) {
        int index = next_message++;
        if (index >= message_count) break;
        double begun = now();
        write_all(link, messages[index].octets, messages[index].length);
        if (read_message(link, buffer) == 0) {
            messages[index].took = 1e9;
            break;
        }
        messages[index].took = now() - begun;
        answered += strncmp(buffer, "HTTP/1.1 200", 12) == 0 || strncmp(buffer, "HTTP/1.0 200", 12) == 0;
        if (strcasestr(buffer, "\r\nconnection: close") || strncmp(buffer, "HTTP/1.0", 8) == 0) {
            close(link);
            link = socket(AF_INET, SOCK_STREAM, 0);
            setsockopt(link, IPPROTO_TCP, TCP_NODELAY, &one, sizeof one);
            if (next_message < message_count && connect(link, (struct sockaddr *)&at, sizeof at) < 0) fail("connect");
        }
    }
    close(link);
    free(buffer);
    return unused;
}

static int longer(const void *a, const void *b) {
    double x = *(const double *)a, y = *(const double *)b;
    return (x > y) - (x < y);
}

/* The time in milliseconds that so many of 1,000 of these messages stay below. */
static double below(int from, int count, int part) {
    static double took[MOST];
    for (int i = 0; i < count; i++) took[i] = messages[from + i].took;
    qsort(took, count, sizeof *took, longer);
    return count > 0 ? 1e3 * took[(long)count * part / 1000] : 0;
}

static int load(int connections, const char *path) {
    pthread_t threads[64];
    read_messages(path);
    double begun = now();
    for (int i = 0; i < connections; i++) pthread_create(&threads[i], NULL, post, NULL);
    for (int i = 0; i < connections; i++) pthread_join(threads[i], NULL);
    double seconds = now() - begun;
    int tenth = (message_count + 9) / 10;
    printf("%d %.6f %.3f %.3f %.3f %.3f\n", answered, seconds, below(0, message_count, 500), below(0, message_count, 990),
           below(0, tenth, 500), below(message_count - tenth, tenth, 500));
    return answered == message_count ? 0 : 1;
}

/* ---- bare */

static int journal;
static char reply[HEAD + BODY];
static size_t reply_length;
static pthread_mutex_t turn = PTHREAD_MUTEX_INITIALIZER;

static void *answer(void *of) {
    int link = (int)(long)of, one = 1;
    char *buffer = malloc(HEAD + BODY + 1), record[RECORD] = {0};
    setsockopt(link, IPPROTO_TCP, TCP_NODELAY, &one, sizeof one);
    while (read_message(link, buffer)) {
        pthread_mutex_lock(&turn);
        write_all(journal, record, RECORD);
        if (fdatasync(journal) < 0) fail("fdatasync");
        write_all(journal, record, 1);
        if (fdatasync(journal) < 0) fail("fdatasync");
        pthread_mutex_unlock(&turn);
        write_all(link, reply, reply_length);
    }
    close(link);
    free(buffer);
    return NULL;
}

static int bare(const char *path, int size) {
    struct sockaddr_in at = local(port);
    int one = 1, door = socket(AF_INET, SOCK_STREAM, 0);
    journal = open(path, O_CREAT | O_WRONLY | O_APPEND, 0600);
    if (journal < 0) fail(path);
    reply_length = sprintf(reply, "HTTP/1.1 200 OK\r\nContent-Type: application/pkixcmp\r\nContent-Length: %d\r\n\r\n", size) + size;
    setsockopt(door, SOL_SOCKET, SO_REUSEADDR, &one, sizeof one);
    if (bind(door, (struct sockaddr *)&at, sizeof at) < 0 || listen(door, 128) < 0) fail("listen");
    for (;;) {
        pthread_t thread;
        int link = accept(door, NULL, NULL);
        if (link < 0) fail("accept");
        pthread_create(&thread, NULL, answer, (void *)(long)link);
        pthread_detach(thread);
    }
    return 0;
}

int main(int count, char **words) {
    if (count == 5 && strcmp(words[1], "load") == 0 && atoi(words[3]) >= 1 && atoi(words[3]) <= 64) {
        port = atoi(words[2]);
        return load(atoi(words[3]), words[4]);
    }
    if (count == 5 && strcmp(words[1], "bare") == 0 && atoi(words[4]) >= 0 && atoi(words[4]) <= BODY) {
        port = atoi(words[2]);
        return bare(words[3], atoi(words[4]));
    }
    fprintf(stderr, "usage: serve load PORT CONNECTIONS FILE | bare PORT FILE SIZE\n");
    return 2;
}
