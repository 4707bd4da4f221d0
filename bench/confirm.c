/* The two clients of bench/confirm whose own time would tell. Each puts the seconds that it took.
 *
 *   confirm serve SOCKET N      asks for and confirms N actions; then also the seconds of the confirms alone
 *   confirm bare JOURNAL FILE   writes the records of JOURNAL anew, each by the two writes and two fdatasync of an
 *                               append
 */
#include <fcntl.h>
#include <stdio.h>
#include <stdlib.h>
#include <string.h>
#include <sys/socket.h>
#include <sys/stat.h>
#include <sys/un.h>
#include <time.h>
#include <unistd.h>

static void fail(const char *what)
{
    perror(what);
    exit(1);
}

static double seconds(void)
{
    struct timespec now;
    clock_gettime(CLOCK_MONOTONIC, &now);
    return now.tv_sec + now.tv_nsec / 1e9;
}

/* Sends a line, and reads the line of its reply, which begins with this word. Gives what stands behind the word, with the
 * line's end, until the next call. */
static const char *request(int fd, const char *line, const char *word)
{
    static char reply[512];
    size_t have = 0;
    if (write(fd, line, strlen(line)) != (ssize_t)strlen(line))
        fail("write");
    do {
        ssize_t count = read(fd, reply + have, sizeof reply - 1 - have);
        if (count <= 0)
            fail("read");
        have += count;
    } while (reply[have - 1] != '\n' && have < sizeof reply - 1);
    reply[have] = 0;
    if (strncmp(reply, word, strlen(word)) != 0) {
        fprintf(stderr, "%s%s", line, reply);
        exit(1);
    }
    return reply + strlen(word);
}

/* A patient is called to an examination, which is performed; 40 patients and 10 examinations take turns. */
static void serve(const char *path, long count)
{
    struct sockaddr_un name = {.sun_family = AF_UNIX};
    int fd = socket(AF_UNIX, SOCK_STREAM, 0);
    strncpy(name.sun_path, path, sizeof name.sun_path - 1);
    if (fd < 0 || connect(fd, (struct sockaddr *)&name, sizeof name) != 0)
        fail(path);
    double confirms = 0, start = seconds();
    for (long i = 0; i < count; i++) {
        char line[128];
        snprintf(line, sizeof line, "ask %s(p%ld,x%ld) 60000\n", i % 2 ? "perform" : "call", i / 2 % 40, i / 2 % 10);
        const char *ticket = request(fd, line, "granted ");
        snprintf(line, sizeof line, "confirm %s", ticket);
        double begin = seconds();
        request(fd, line, "confirmed ");
        confirms += seconds() - begin;
    }
    printf("%f %f\n", seconds() - start, confirms);
}

static void put(int fd, const void *bytes, size_t count, off_t at)
{
    if (pwrite(fd, bytes, count, at) != (ssize_t)count || fdatasync(fd) != 0)
        fail("append");
}

/* The numbers of a journal have two bytes, the higher first (docs/journal.md). */
static size_t number(const unsigned char *at)
{
    return at[0] * 256 + at[1];
}

static void bare(const char *journal, const char *path)
{
    const unsigned char open_gate = 0xA5;
    struct stat of;
    int from = open(journal, O_RDONLY);
    int fd = open(path, O_RDWR | O_CREAT | O_EXCL, 0666);
    if (from < 0 || fd < 0 || fstat(from, &of) != 0)
        fail("open");
    unsigned char *bytes = malloc(of.st_size);
    if (bytes == NULL || read(from, bytes, of.st_size) != of.st_size)
        fail(journal);
    size_t gate = 7 + number(bytes + 5);
    put(fd, bytes, gate, 0);
    put(fd, "", 1, gate);
    double start = seconds();
    while (bytes[gate] == open_gate) {
        size_t length = 2 + number(bytes + gate + 1);
        unsigned char record[256];
        memcpy(record, bytes + gate + 1, length);
        record[length] = 0;
        put(fd, record, length + 1, gate + 1);
        put(fd, &open_gate, 1, gate);
        gate += length + 1;
    }
    printf("%f\n", seconds() - start);
}

int main(int words, char **word)
{
    if (words == 4 && strcmp(word[1], "serve") == 0)
        serve(word[2], atol(word[3]));
    else if (words == 4 && strcmp(word[1], "bare") == 0)
        bare(word[2], word[3]);
    else
        return 2;
    return 0;
}
