/* A server that evaluates nothing, to compare with: it answers a clone with an id, and every other
   message with the value 3 and `done`. It shows what sockets and load.c alone allow.

       gcc -O2 -pthread -o idle_server tools/idle_server.c
       tools/load.py --idle ./idle_server

   A thread a connection, and one write for all replies to what one read gave. It trusts its peers,
   listens on 127.0.0.1 alone, and prints its port. */

#define _GNU_SOURCE
#include <arpa/inet.h>
#include <netinet/tcp.h>
#include <pthread.h>
#include <stdio.h>
#include <stdlib.h>
#include <string.h>
#include <unistd.h>

/* Behind the value at p, if it ends before e. */
static char *skip(char *p, char *e) {
    if (p >= e) return NULL;
    if (*p == 'i') {
        char *q = memchr(p, 'e', e - p);
        return q ? q + 1 : NULL;
    }
    if (*p == 'l' || *p == 'd') {
        for (p++; p < e && *p != 'e';) { p = skip(p, e); if (!p) return NULL; }
        return p < e ? p + 1 : NULL;
    }
    char *c = memchr(p, ':', e - p);
    if (!c) return NULL;
    long n = strtol(p, NULL, 10);
    return e - c - 1 >= n ? c + 1 + n : NULL;
}

static void *conn(void *a) {
    int fd = (int)(long)a, one = 1;
    size_t cap = 1 << 22, n = 0;
    char *in = malloc(cap), *out = malloc(cap * 8);
    setsockopt(fd, IPPROTO_TCP, TCP_NODELAY, &one, sizeof one);
    for (;;) {
        ssize_t k = recv(fd, in + n, cap - n, 0);
        if (k <= 0) break;
        n += k;
        char *p = in, *e = in + n, *q;
        size_t o = 0;
        while (p < e && (q = skip(p, e))) {
            char *id = NULL, *se = NULL, *x = p + 1;
            int ni = 0, ns = 0, clone = 0;
            while (*x != 'e') {
                char *kend = skip(x, q), *v = kend, *w = skip(v, q);
                if (kend - x == 4 && !memcmp(x, "2:id", 4)) id = v, ni = w - v;
                if (kend - x == 9 && !memcmp(x, "7:session", 9)) se = v, ns = w - v;
                if (w - v == 7 && !memcmp(v, "5:clone", 7)) clone = 1;
                x = w;
            }
            if (o > cap * 7) {
                if (write(fd, out, o) < 0) break;
                o = 0;
            }
            for (int d = clone; d < 2; d++) {
                out[o++] = 'd';
                if (id) o += sprintf(out + o, "2:id%.*s", ni, id);
                if (clone)
                    o += sprintf(out + o, "11:new-session36:00000000-0000-4000-8000-000000000000");
                if (!d) o += sprintf(out + o, "2:ns4:user");
                if (se) o += sprintf(out + o, "7:session%.*s", ns, se);
                o += sprintf(out + o, d ? "6:statusl4:doneee" : "5:value1:3e");
            }
            p = q;
        }
        memmove(in, p, e - p);
        n = e - p;
        for (size_t s = 0; s < o;) {
            ssize_t w = write(fd, out + s, o - s);
            if (w <= 0) goto end;
            s += w;
        }
    }
end:
    close(fd);
    free(in);
    free(out);
    return NULL;
}

int main(void) {
    struct sockaddr_in sa = {.sin_family = AF_INET};
    socklen_t l = sizeof sa;
    sa.sin_addr.s_addr = htonl(INADDR_LOOPBACK);
    int s = socket(AF_INET, SOCK_STREAM, 0);
    bind(s, (void *)&sa, sizeof sa);
    listen(s, 64);
    getsockname(s, (void *)&sa, &l);
    printf("listening on 127.0.0.1:%d\n", ntohs(sa.sin_port));
    fflush(stdout);
    for (;;) {
        pthread_t t;
        long fd = accept(s, NULL, NULL);
        if (fd < 0) return 1;
        pthread_create(&t, NULL, conn, (void *)fd);
        pthread_detach(t);
    }
}
