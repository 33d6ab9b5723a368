/*
 * Times OpenSSL's reading of CMP messages on one core: d2i_OSSL_CMP_MSG, and the freeing of what it made.
 *
 * The words are paths of files that hold a message each. Prints a line for each of them: the path, a tab, and the
 * nanoseconds of one reading, the least of some turns, or a dash where OpenSSL doesn't read it.
 */
#include <openssl/cmp.h>
#include <stdio.h>
#include <stdlib.h>
#include <string.h>
#include <time.h>

enum { TURNS = 2000, OCTETS = 20000, GREATEST = 131072 };

/* No further turn begins after so many nanoseconds. */
static const long long LONGEST = 2000000000;

static long long nanoseconds(void)
{
    struct timespec now;

    clock_gettime(CLOCK_MONOTONIC, &now);
    return now.tv_sec * 1000000000LL + now.tv_nsec;
}

static void fail(const char *path, const char *what)
{
    fprintf(stderr, "%s: %s\n", path, what);
    exit(1);
}

/* Reads each of the copies of a message, one behind the other. Gives the nanoseconds of all, or -1 where one isn't read. */
static long long read_all(const unsigned char *octets, long length, long count)
{
    long long start = nanoseconds();
    long i;

    for (i = 0; i < count; i++) {
        const unsigned char *from = octets + i * length;
        OSSL_CMP_MSG *message = d2i_OSSL_CMP_MSG(NULL, &from, length);

        OSSL_CMP_MSG_free(message);
        if (message == NULL || from != octets + (i + 1) * length)
            return -1;
    }
    return nanoseconds() - start;
}

/* The nanoseconds of one reading, the least of some turns, or -1. */
static long long least_of(const unsigned char *octets, long length, long count)
{
    long long least = -1, begun = nanoseconds();
    int turn;

    for (turn = 0; turn < TURNS && nanoseconds() - begun < LONGEST; turn++) {
        long long taken = read_all(octets, length, count);

        if (taken < 0)
            return -1;
        if (least < 0 || taken / count < least)
            least = taken / count;
    }
    return least;
}

static void time_file(const char *path)
{
    static unsigned char message[GREATEST];
    FILE *file = fopen(path, "rb");
    long length = file == NULL ? 0 : (long)fread(message, 1, sizeof message, file);
    long count, i;
    long long least;
    unsigned char *octets;

    if (length == 0)
        fail(path, "no message");
    fclose(file);
    count = OCTETS / length + 1;
    octets = malloc(count * length);
    if (octets == NULL)
        fail(path, "no memory");
    for (i = 0; i < count; i++)
        memcpy(octets + i * length, message, length);
    least = least_of(octets, length, count);
    free(octets);
    if (least < 0)
        printf("%s\t-\n", path);
    else
        printf("%s\t%lld\n", path, least);
}

int main(int argc, char **argv)
{
    int i;

    for (i = 1; i < argc; i++)
        time_file(argv[i]);
    return 0;
}
