/* The load that load.py makes: connections to an nREPL server on 127.0.0.1, each reply checked.

       load PORT CONNECTIONS EVALS WINDOW ACKNOWLEDGES SETUP CODE VALUE

   Each connection is a thread with a session of its own. It evaluates SETUP, waits until all have
   done so, and evaluates CODE so many times, of which at most WINDOW are unanswered. Each gives
   VALUE or, where that is `counted`, its own number from 1, or where it is `rising` a number above
   those before it on its connection. Where ACKNOWLEDGES is 1 what comes is acknowledged at once; else
   the system does it, which waits up to 40 ms with it.

   It prints the seconds that all took, and how many evals were done behind a later one of their
   connection; then for each eval, a line each, the microseconds from its request to its `done`.
   Its connections stay open until its input ends. At anything wrong it says so on standard error
   and ends with status 1. */

#define _GNU_SOURCE
#include <arpa/inet.h>
#include <netinet/tcp.h>
#include <pthread.h>
#include <stdio.h>
#include <stdlib.h>
#include <string.h>
#include <sys/time.h>
#include <time.h>
#include <unistd.h>

/* The most bytes of what waits to be taken, and of a request or a reply. */
enum { ROOM = 1 << 16, LONGEST = 4096, SECONDS = 60 };

static int port, acknowledges;
static long connections, evals, window;
static const char *setup, *code, *value;
static pthread_barrier_t all_are_ready;

struct text {
    const char *at;
    size_t length;
};

static const struct text NOTHING = {"", 0};

struct client {
    pthread_t thread;
    int socket;
    char session[40]; /* as it is spelled */
    char input[ROOM];
    size_t from, to; /* what of the input was not taken yet */
    char *requests;
    long asked, done, last, overtaken, highest;
    char *told; /* how many replies came to each eval */
    double *times; /* when an eval was asked for, and then how long it took */
    double began, ended;
};

static void fail(const char *why, struct text shown)
{
    fprintf(stderr, "load: %s: %.*s\n", why, (int)shown.length, shown.at);
    _exit(1);
}

static double now(void)
{
    struct timespec time;
    clock_gettime(CLOCK_MONOTONIC, &time);
    return time.tv_sec + time.tv_nsec * 1e-9;
}

/* What follows the bencoded value that begins here; nothing where it is not whole yet. */
static const char *behind(const char *at, const char *end)
{
    if (at < end && *at == 'i') {
        const char *last = memchr(at, 'e', end - at);
        return last ? last + 1 : NULL;
    }
    if (at < end && (*at == 'l' || *at == 'd')) {
        for (at++; at && at < end && *at != 'e';)
            at = behind(at, end);
        return at && at < end ? at + 1 : NULL;
    }
    size_t length = 0;
    for (; at < end && *at >= '0' && *at <= '9' && length < ROOM; at++)
        length = 10 * length + *at - '0';
    if (at < end && *at != ':')
        fail("no bencode", (struct text){at, end - at});
    return length < (size_t)(end - at) ? at + 1 + length : NULL;
}

/* Takes the next message of the input, if it is whole. */
static int has_message(struct client *client, struct text *message)
{
    message->at = client->input + client->from;
    const char *next = behind(message->at, client->input + client->to);
    if (!next)
        return 0;
    message->length = next - message->at;
    client->from += message->length;
    return 1;
}

static struct text next_message(struct client *client)
{
    struct text message;
    while (!has_message(client, &message)) {
        client->to -= client->from;
        memmove(client->input, client->input + client->from, client->to);
        client->from = 0;
        char *free = client->input + client->to;
        ssize_t count = recv(client->socket, free, ROOM - client->to, 0);
        if (count <= 0)
            fail("no whole reply came", (struct text){client->input, client->to});
        client->to += count;
        if (acknowledges)
            setsockopt(client->socket, IPPROTO_TCP, TCP_QUICKACK, &(int){1}, sizeof(int));
    }
    return message;
}

static void transmit(struct client *client, const char *from, const char *to)
{
    while (from < to) {
        ssize_t count = send(client->socket, from, to - from, MSG_NOSIGNAL);
        if (count <= 0)
            fail("the server takes nothing", NOTHING);
        from += count;
    }
}

/* Writes a request to evaluate this, whose id is the number in eight digits, and gives its end. */
static char *write_eval(struct client *client, char *at, const char *what, long number)
{
    return at + sprintf(at, "d4:code%zu:%s2:id8:%08ld2:op4:eval7:session%se", strlen(what), what,
                        number, client->session);
}

/* The last reply to a request that is sent alone. */
static struct text answer(struct client *client, const char *request, const char *end)
{
    struct text reply;
    transmit(client, request, end);
    do
        reply = next_message(client);
    while (!memmem(reply.at, reply.length, "6:statusl", 9));
    if (!memmem(reply.at, reply.length, "6:statusl4:donee", 16))
        fail("not done", reply);
    return reply;
}

/* A connection, with a session in which SETUP was evaluated. */
static void begin(struct client *client)
{
    struct sockaddr_in address = {.sin_family = AF_INET, .sin_port = htons(port)};
    struct timeval limit = {.tv_sec = SECONDS};
    address.sin_addr.s_addr = htonl(INADDR_LOOPBACK);
    client->socket = socket(AF_INET, SOCK_STREAM, 0);
    setsockopt(client->socket, IPPROTO_TCP, TCP_NODELAY, &(int){1}, sizeof(int));
    setsockopt(client->socket, SOL_SOCKET, SO_RCVTIMEO, &limit, sizeof limit);
    if (connect(client->socket, (struct sockaddr *)&address, sizeof address))
        fail("nobody listens", NOTHING);
    const char *clone = "d2:id1:02:op5:clonee";
    struct text reply = answer(client, clone, clone + strlen(clone));
    const char *made = memmem(reply.at, reply.length, "11:new-session36:", 17);
    if (!made)
        fail("no session was made", reply);
    snprintf(client->session, sizeof client->session, "%.39s", made + 14);
    answer(client, client->requests, write_eval(client, client->requests, setup, 0));
}

/* Asks for as many evaluations as may be unanswered, in one piece. */
static void ask(struct client *client)
{
    char *end = client->requests;
    for (; client->asked < evals && client->asked - client->done < window; client->asked++) {
        end = write_eval(client, end, code, client->asked);
        client->times[client->asked] = now();
    }
    transmit(client, client->requests, end);
}

/* The number that a reply has as its value, if it is above those before it; else none is as it is
   wanted. */
static long risen(struct client *client, struct text reply)
{
    const char *found = memmem(reply.at, reply.length, "5:value", 7);
    const char *colon = found ? memchr(found + 7, ':', reply.at + reply.length - found - 7) : NULL;
    long number = colon ? atol(colon + 1) : 0;
    if (number <= client->highest)
        fail("no number above those before it", reply);
    return client->highest = number;
}

/* Takes a reply. An eval has two, its value and then `done`, and each of them has one spelling. */
static void take(struct client *client, struct text reply)
{
    char digits[9] = "", wanted[LONGEST] = "", counted[24];
    if (reply.length > 15)
        memcpy(digits, reply.at + 7, 8);
    long number = atol(digits);
    int told = number >= 0 && number < client->asked ? client->told[number]++ : 2;
    if (told == 1) {
        sprintf(wanted, "d2:id8:%08ld7:session%s6:statusl4:doneee", number, client->session);
        client->times[number] = now() - client->times[number];
        client->done++;
        client->overtaken += number < client->last;
        client->last = number > client->last ? number : client->last;
    } else if (told == 0) {
        int rises = !strcmp(value, "rising");
        sprintf(counted, "%ld", rises ? risen(client, reply) : number + 1);
        const char *text = rises || !strcmp(value, "counted") ? counted : value;
        sprintf(wanted, "d2:id8:%08ld2:ns4:user7:session%s5:value%zu:%se", number, client->session,
                strlen(text), text);
    }
    if (reply.length != strlen(wanted) || memcmp(reply.at, wanted, reply.length))
        fail("a wrong reply", reply);
}

static void *run(void *argument)
{
    struct client *client = argument;
    struct text reply;
    client->requests = malloc((window + 1) * LONGEST);
    client->told = calloc(evals, 1);
    client->times = calloc(evals, sizeof *client->times);
    begin(client);
    pthread_barrier_wait(&all_are_ready);
    client->began = now();
    while (client->done < evals) {
        ask(client);
        for (reply = next_message(client), take(client, reply); has_message(client, &reply);)
            take(client, reply);
    }
    client->ended = now();
    return NULL;
}

int main(int count, char **words)
{
    if (count != 9 || strlen(words[6]) + strlen(words[7]) + strlen(words[8]) > LONGEST / 2)
        fail("eight words are wanted", NOTHING);
    port = atoi(words[1]), connections = atol(words[2]), evals = atol(words[3]);
    window = atol(words[4]), acknowledges = atoi(words[5]);
    setup = words[6], code = words[7], value = words[8];
    struct client *clients = calloc(connections, sizeof *clients);
    pthread_barrier_init(&all_are_ready, NULL, connections);
    for (long i = 0; i < connections; i++)
        pthread_create(&clients[i].thread, NULL, run, &clients[i]);
    double began = 1e300, ended = 0;
    long overtaken = 0;
    for (struct client *it = clients; it < clients + connections; it++) {
        pthread_join(it->thread, NULL);
        began = it->began < began ? it->began : began;
        ended = it->ended > ended ? it->ended : ended;
        overtaken += it->overtaken;
    }
    printf("%.6f %ld\n", ended - began, overtaken);
    for (long i = 0; i < connections * evals; i++)
        printf("%.1f\n", 1e6 * clients[i / evals].times[i % evals]);
    fflush(stdout);
    while (getchar() != EOF)
        ;
}
