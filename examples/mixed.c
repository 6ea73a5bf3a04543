/* Mixes all calls of malloc over sizes up to 400,000 bytes, in as many threads
 * as THREADS says (1 by default) and by the seed SEED, says "ready" and waits
 * to be dumped. A global holds each block; what counts is that the core has a
 * chunk in use for each. */
#include <malloc.h>
#include <mcheck.h>
#include <pthread.h>
#include <stdio.h>
#include <stdlib.h>
#include <unistd.h>

enum { BLOCKS = 500, CALLS = 20000, MOST_THREADS = 64 };

static void *blocks[MOST_THREADS][BLOCKS];
static unsigned seed = 1;

static unsigned draw(unsigned *state, unsigned below)
{
    return (unsigned)rand_r(state) % below;
}

/* Mostly a small size, and one in fifty up to 400,000. */
static size_t draw_size(unsigned *state)
{
    return 1 + (draw(state, 50) ? draw(state, 3000) : draw(state, 400000));
}

static void *aligned(unsigned *state)
{
    size_t alignment = (size_t)16 << draw(state, 9);
    size_t size = draw_size(state);
    void *block = NULL;
    if (draw(state, 2)) {
        return memalign(alignment, size);
    }
    return posix_memalign(&block, alignment, size) ? NULL : block;
}

static void *work(void *number)
{
    unsigned state = seed * 7919 + (unsigned)(size_t)number;
    void **own = blocks[(size_t)number];
    for (int i = 0; i < CALLS; i++) {
        void **place = &own[draw(&state, BLOCKS)];
        switch (draw(&state, 5)) {
        case 0:
            free(*place);
            *place = malloc(draw_size(&state));
            break;
        case 1:
            free(*place);
            *place = calloc(1, draw_size(&state));
            break;
        case 2:
            *place = realloc(*place, draw_size(&state));
            break;
        case 3:
            free(*place);
            *place = aligned(&state);
            break;
        default:
            free(*place);
            *place = NULL;
        }
    }
    return NULL;
}

int main(void)
{
    pthread_t threads[MOST_THREADS];
    size_t count = getenv("THREADS") ? (size_t)atoi(getenv("THREADS")) : 1;
    if (count == 0 || count > MOST_THREADS) {
        return 2;
    }
    if (getenv("SEED")) {
        seed = (unsigned)atoi(getenv("SEED"));
    }
    mtrace();
    for (size_t i = 1; i < count; i++) {
        if (pthread_create(&threads[i], NULL, work, (void *)i)) {
            return 2;
        }
    }
    work((void *)0);
    for (size_t i = 1; i < count; i++) {
        pthread_join(threads[i], NULL);
    }
    fflush(NULL);
    fprintf(stderr, "ready\n");
    for (;;) {
        pause();
    }
}
