/* Requests a second that a served node answers, and what one costs; and those of a server with bitcoind's RPC.
 *
 *     requests PROGRAM SEATS COUNT      so many calls of `getbestblockhash` at each of so many seats, one after the other
 *     requests :PORT CONNECTIONS COUNT  the same at 127.0.0.1 by so many connections that are kept, for `u` with `p`
 *
 * A thread a seat waits for its answer before it asks again, so the time of a request is that of its way through the
 * program: two pipes, the thread that reads, the seat's, and the one that writes. One thread reads the answers and wakes
 * who asked. Prints requests a second, and microseconds a request at a seat.
 */
#define _GNU_SOURCE
#include <arpa/inet.h>
#include <netinet/tcp.h>
#include <pthread.h>
#include <semaphore.h>
#include <stdio.h>
#include <stdlib.h>
#include <string.h>
#include <sys/socket.h>
#include <sys/wait.h>
#include <time.h>
#include <unistd.h>

static int to_program, from_program, port;
static long count;
static pthread_mutex_t writing = PTHREAD_MUTEX_INITIALIZER;
static sem_t answered[16];

static void fail(const char *what)
{
    perror(what);
    exit(1);
}

static double seconds(void)
{
    struct timespec now;
    clock_gettime(CLOCK_MONOTONIC, &now);
    return now.tv_sec + now.tv_nsec / 1e9;
}

static void *ask(void *seat_number)
{
    long seat = (long)seat_number;
    char line[128];
    int length = snprintf(line, sizeof line,
        "{\"jsonrpc\":\"2.0\",\"id\":%ld,\"method\":\"getbestblockhash\",\"params\":{\"seat\":%ld}}\n", seat, seat);
    for (long number = 0; number < count; number++) {
        pthread_mutex_lock(&writing);
        if (write(to_program, line, length) != length)
            fail("write");
        pthread_mutex_unlock(&writing);
        while (sem_wait(&answered[seat]))
            ;
    }
    return NULL;
}

/* The answers come whole lines at a time, whose ids are the seats. */
static void *listen_to(void *unused)
{
    FILE *stream = fdopen(from_program, "r");
    char *line = NULL;
    size_t room = 0;
    while (getline(&line, &room, stream) > 0) {
        char *id = strstr(line, "\"id\":");
        if (!id || !strstr(line, "\"result\""))
            fail(line);
        sem_post(&answered[atol(id + 5)]);
    }
    free(line);
    fclose(stream);
    return unused;
}

/* A connection: a request at a time. */
static void *ask_by_rpc(void *unused)
{
    static const char request[] = "POST / HTTP/1.1\r\nHost: x\r\nAuthorization: Basic dTpw\r\nContent-Length: 48\r\n\r\n"
                                  "{\"id\":1,\"method\":\"getbestblockhash\",\"params\":[]}";
    struct sockaddr_in to = {.sin_family = AF_INET, .sin_port = htons(port), .sin_addr = {htonl(INADDR_LOOPBACK)}};
    int one = 1, stream = socket(AF_INET, SOCK_STREAM, 0);
    if (stream < 0 || connect(stream, (struct sockaddr *)&to, sizeof to))
        fail("connect");
    setsockopt(stream, IPPROTO_TCP, TCP_NODELAY, &one, sizeof one);
    char answer[4096];
    for (long number = 0; number < count; number++) {
        if (write(stream, request, sizeof request - 1) != sizeof request - 1)
            fail("write");
        long length = 0;
        while (length < 2 || memcmp(answer + length - 2, "}\n", 2)) {
            long got = read(stream, answer + length, sizeof answer - 1 - length);
            if (got <= 0)
                fail("read");
            length += got;
        }
        answer[length] = 0;
        if (!strstr(answer, "\"error\":null"))
            fail(answer);
    }
    close(stream);
    return unused;
}

static void tell(const char *what, long callers, double spent)
{
    printf("%ld %s: %.0f requests a second, %.1f microseconds a request at one\n", callers, what, callers * count / spent,
        spent / count * 1e6);
}

static double run_all(long callers, void *(*run)(void *))
{
    pthread_t threads[16];
    double begun = seconds();
    for (long caller = 0; caller < callers; caller++)
        pthread_create(&threads[caller], NULL, run, (void *)caller);
    for (long caller = 0; caller < callers; caller++)
        pthread_join(threads[caller], NULL);
    return seconds() - begun;
}

int main(int argc, char **argv)
{
    if (argc != 4)
        return fprintf(stderr, "usage: requests PROGRAM|:PORT SEATS COUNT\n"), 2;
    long seats = atol(argv[2]);
    count = atol(argv[3]);
    if (seats < 1 || seats > 16)
        return fprintf(stderr, "requests: 1 to 16 seats\n"), 2;
    if (argv[1][0] == ':') {
        port = atoi(argv[1] + 1);
        tell("connections", seats, run_all(seats, ask_by_rpc));
        return 0;
    }
    int in[2], out[2];
    if (pipe(in) || pipe(out))
        fail("pipes");
    pid_t child = fork();
    if (child < 0)
        fail("fork");
    if (!child) {
        dup2(in[0], 0), dup2(out[1], 1);
        close(in[0]), close(in[1]), close(out[0]), close(out[1]);
        execl(argv[1], argv[1], "serve", "--seats", argv[2], (char *)NULL);
        fail(argv[1]);
    }
    close(in[0]), close(out[1]);
    to_program = in[1], from_program = out[0];
    pthread_t listener;
    for (long seat = 0; seat < seats; seat++)
        sem_init(&answered[seat], 0, 0);
    pthread_create(&listener, NULL, listen_to, NULL);
    double spent = run_all(seats, ask);
    close(to_program);
    pthread_join(listener, NULL);
    int status;
    waitpid(child, &status, 0);
    tell("seats", seats, spent);
    return status != 0;
}
