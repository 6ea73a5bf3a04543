/* A small server of the usual shape, without a network. Five kinds of its blocks are lost on paths of their own, and of
 * all five many are held: a connection that is refused, a request whose answer failed, a session that is made anew, a
 * timer that is cancelled, an entry that is evicted, and a header that is replaced. */
#include <stdint.h>
#include <stdio.h>
#include <stdlib.h>
#include <string.h>
#include <unistd.h>

enum { ROUNDS = 3000, SESSIONS = 64, ENTRIES = 256 };

struct connection;
typedef void handler(struct connection *, int);

struct buffer {
    char *data;
    size_t used, size;
};

struct header {
    char *name, *value;
    struct header *next;
};

struct session {
    char id[33];
    uint32_t flags;
    uint64_t expires;
    struct session *chain;
    void *user;
};

struct request {
    struct connection *connection;
    char *method, *path;
    struct header *headers;
    int status;
    struct session *session;
    double took;
};

struct connection {
    int file, state;
    handler *on_read, *on_write;
    struct connection *next, *before;
    struct buffer in, out;
    struct request *current;
    uint64_t opened;
    char peer[40];
};

struct timer {
    uint64_t at;
    void (*fire)(void *);
    void *argument;
    struct timer *left, *right;
    int priority;
};

struct entry {
    struct entry *next;
    uint64_t hash;
    char *key;
    void *value;
    size_t size;
    int users;
};

static struct connection *connections;
static struct session *sessions[SESSIONS];
static struct timer *timers;
static struct entry **entries;
static unsigned long requests, state = 1;

static void on_read(struct connection *c, int n) { c->state += n; }
static void on_write(struct connection *c, int n) { c->state -= n; }
static void on_read_done(struct connection *c, int n) { c->state = n; }
static void expire(void *argument) { (void)argument, requests--; }
static void retry(void *argument) { (void)argument, requests++; }

static unsigned chance(void)
{
    state = state * 6364136223846793005u + 1442695040888963407u;
    return state >> 33;
}

static void *cleared(size_t size)
{
    void *block = calloc(1, size);

    if (!block)
        abort();
    return block;
}

static char *copied(const char *text) { return strcpy(cleared(strlen(text) + 1), text); }

__attribute__((noinline)) static struct connection *new_connection(int file)
{
    struct connection *c = cleared(sizeof *c);

    c->file = file, c->on_read = on_read, c->on_write = on_write;
    c->in.data = cleared(c->in.size = 512);
    c->opened = 1700000000 + file;
    snprintf(c->peer, sizeof c->peer, "10.0.%d.%d", file / 256 % 256, file % 256);
    return c;
}

__attribute__((noinline)) static struct header *new_header(const char *name, const char *value, struct header *next)
{
    struct header *h = cleared(sizeof *h);

    h->name = copied(name), h->value = copied(value), h->next = next;
    return h;
}

__attribute__((noinline)) static struct request *new_request(struct connection *c, const char *path)
{
    struct request *r = cleared(sizeof *r);

    r->connection = c, r->method = copied("GET"), r->path = copied(path);
    r->headers = new_header("Host", "example.org", new_header("Accept", "text/html", NULL));
    return r;
}

__attribute__((noinline)) static struct session *new_session(void)
{
    struct session *s = cleared(sizeof *s);

    for (int i = 0; i < 32; i++)
        s->id[i] = "0123456789abcdef"[chance() & 15];
    s->expires = 1700003600 + chance() % 1000;
    return s;
}

__attribute__((noinline)) static struct timer *new_timer(void (*fire)(void *), void *argument)
{
    struct timer *t = cleared(sizeof *t);

    t->at = chance(), t->fire = fire, t->argument = argument, t->priority = chance() & 255;
    return t;
}

__attribute__((noinline)) static struct entry *new_entry(const char *key)
{
    struct entry *e = cleared(sizeof *e);

    e->key = copied(key), e->hash = chance() * 2654435761u, e->users = 1;
    e->value = memset(cleared(e->size = 40 + chance() % 100), 7, 40);
    return e;
}

static void put_timer(struct timer *t)
{
    struct timer **place = &timers;

    while (*place)
        place = t->at < (*place)->at ? &(*place)->left : &(*place)->right;
    *place = t;
}

static void put_connection(struct connection *c)
{
    c->next = connections;
    if (connections)
        connections->before = c;
    connections = c;
}

/* What one round holds: a connection with its request, its session and its timer, and an entry. */
static struct connection *hold(int round)
{
    struct connection *c = new_connection(round);
    struct session *s = new_session();
    char text[32];

    put_connection(c);
    s->chain = sessions[round % SESSIONS], sessions[round % SESSIONS] = s;
    snprintf(text, sizeof text, "/page/%d", round);
    c->current = new_request(c, text), c->current->session = s;
    put_timer(new_timer(expire, c));
    snprintf(text, sizeof text, "user:%d", round);
    struct entry *e = new_entry(text);
    e->next = entries[e->hash % ENTRIES], entries[e->hash % ENTRIES] = e;
    return c;
}

/* What some rounds lose. */
static void lose(int round, struct connection *c)
{
    if (round % 30 == 0) {
        struct connection *refused = new_connection(100000 + round);
        refused->on_read = on_read_done, refused->file = -1, refused->peer[0] = 0;
        refused->out.data = cleared(refused->out.size = 1024);
    }
    if (round % 40 == 0) {
        struct request *failed = new_request(c, "/gone");
        failed->connection = NULL, failed->status = 500;
    }
    if (round % 25 == 0)
        new_session();
    if (round % 50 == 0)
        new_timer(retry, c->current->session);
    if (round % 35 == 0) {
        struct entry *evicted = new_entry("evicted");
        free(evicted->key);
        evicted->users = 0, evicted->key = NULL;
    }
    if (round % 60 == 0)
        c->current->headers = c->current->headers->next;
}

int main(void)
{
    volatile char gone[16384];

    entries = cleared(ENTRIES * sizeof *entries);
    for (int round = 0; round < ROUNDS; round++)
        lose(round, hold(round));
    for (size_t i = 0; i < sizeof gone; i++)
        gone[i] = 0;
    for (;;)
        pause();
}
