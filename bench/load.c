/* The engines of bench/load, each a thread, so that little of a client's time is counted as the manager's.
 *
 *   load SOCKET WAY ENGINES SECONDS PATIENCE
 *
 * Each does one action after the other for so many seconds: it asks, and confirms what is granted. Behind a 20, and behind
 * a wait of more than PATIENCE seconds, it tries again after 10 to 30 milliseconds. Puts a line for each engine: how often
 * it was answered 20, how often it waited in vain or was closed, and the microseconds that each of its actions took.
 */
#include <pthread.h>
#include <stdio.h>
#include <stdlib.h>
#include <string.h>
#include <sys/socket.h>
#include <sys/time.h>
#include <sys/un.h>
#include <time.h>
#include <unistd.h>

static const char *const ways[] = {"straight", "connection", "turn", "kept"};
enum way { STRAIGHT, CONNECTION, TURN, KEPT, NO_WAY };

struct engine {
    int number;
    int fd; /* its connection, or -1 */
    unsigned random;
    long busy, lost, done, room;
    double *took;
};

static const char *path;
static enum way way;
static double begin, end, patience;

static void fail(const char *what)
{
    fprintf(stderr, "load: %s\n", what);
    exit(1);
}

static double seconds(void)
{
    struct timespec now;
    clock_gettime(CLOCK_MONOTONIC, &now);
    return now.tv_sec + now.tv_nsec / 1e9;
}

static void leave(struct engine *of)
{
    if (of->fd >= 0)
        close(of->fd);
    of->fd = -1;
}

/* A connect waits where the queue is full: one with a limit of time would be refused there at once. */
static int enter(struct engine *of)
{
    struct sockaddr_un name = {.sun_family = AF_UNIX};
    struct timeval limit = {.tv_sec = patience, .tv_usec = (patience - (long)patience) * 1e6};
    strncpy(name.sun_path, path, sizeof name.sun_path - 1);
    of->fd = socket(AF_UNIX, SOCK_STREAM, 0);
    if (of->fd < 0)
        fail("no socket");
    if (connect(of->fd, (struct sockaddr *)&name, sizeof name) != 0)
        return 0;
    setsockopt(of->fd, SOL_SOCKET, SO_RCVTIMEO, &limit, sizeof limit);
    return 1;
}

static int exchange(struct engine *of, const char *line, char *reply, size_t room)
{
    size_t have = 0;
    if (of->fd < 0 && !enter(of))
        return 0;
    if (send(of->fd, line, strlen(line), MSG_NOSIGNAL) != (ssize_t)strlen(line))
        return 0;
    do {
        ssize_t count = recv(of->fd, reply + have, room - 1 - have, 0);
        if (count <= 0)
            return 0;
        have += count;
    } while (reply[have - 1] != '\n' && have < room - 1);
    reply[have] = 0;
    return 1;
}

/* Whether the line was replied to. */
static int request(struct engine *of, const char *line, char *reply, size_t room)
{
    int is_told = exchange(of, line, reply, room);
    of->lost += !is_told;
    if (way == STRAIGHT || !is_told)
        leave(of);
    return is_told;
}

static int begins(const char *reply, const char *word)
{
    return strncmp(reply, word, strlen(word)) == 0;
}

/* Whether the next action was granted and confirmed. */
static int try_once(struct engine *of)
{
    char line[300], reply[256];
    if (way == TURN && !request(of, "status\n", reply, sizeof reply))
        return 0;
    snprintf(line, sizeof line, "ask do(e%d) 10000\n", of->number);
    if (!request(of, line, reply, sizeof reply))
        return 0;
    if (begins(reply, "refused 20 ")) {
        of->busy++;
        return 0;
    }
    if (!begins(reply, "granted "))
        fail(reply);
    snprintf(line, sizeof line, "confirm %s", reply + strlen("granted "));
    if (!request(of, line, reply, sizeof reply))
        return 0;
    if (!begins(reply, "confirmed ") && !begins(reply, "refused 3"))
        fail(reply);
    return begins(reply, "confirmed ");
}

static void note(struct engine *of, double took)
{
    if (of->done == of->room) {
        of->room = of->room ? 2 * of->room : 64;
        of->took = realloc(of->took, of->room * sizeof *of->took);
        if (of->took == NULL)
            fail("no memory");
    }
    of->took[of->done++] = took;
}

static void *run(void *given)
{
    struct engine *of = given;
    double start;
    while (seconds() < begin)
        usleep(500);
    while ((start = seconds()) < end) {
        int is_done;
        while (!(is_done = try_once(of)) && seconds() < end) {
            leave(of);
            usleep(10000 + rand_r(&of->random) % 20000);
        }
        if (way != KEPT)
            leave(of);
        if (is_done && seconds() < end)
            note(of, seconds() - start);
    }
    leave(of);
    return NULL;
}

static void put(const struct engine *of)
{
    printf("%ld %ld", of->busy, of->lost);
    for (long i = 0; i < of->done; i++)
        printf(" %.0f", of->took[i] * 1e6);
    puts("");
}

int main(int words, char **word)
{
    if (words != 6)
        return 2;
    path = word[1];
    while (way < NO_WAY && strcmp(word[2], ways[way]) != 0)
        way++;
    int count = atoi(word[3]);
    if (way == NO_WAY || count <= 0)
        return 2;
    struct engine *engines = calloc(count, sizeof *engines);
    pthread_t *threads = calloc(count, sizeof *threads);
    if (engines == NULL || threads == NULL)
        fail("no memory");
    patience = atof(word[5]);
    begin = seconds() + 0.3;
    end = begin + atof(word[4]);
    for (int i = 0; i < count; i++) {
        engines[i] = (struct engine){.number = i, .fd = -1, .random = i + 1};
        if (pthread_create(&threads[i], NULL, run, &engines[i]) != 0)
            fail("no thread");
    }
    for (int i = 0; i < count; i++)
        pthread_join(threads[i], NULL);
    for (int i = 0; i < count; i++)
        put(&engines[i]);
    return 0;
}
