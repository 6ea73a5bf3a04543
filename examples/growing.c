/* A program that grows and loses nothing: its cache keeps every answer, and nobody ever removes one. It keeps 1,000
 * answers each second. docs/USING.md asks what grew, who holds it, and by which variable. */
#include <stdio.h>
#include <stdlib.h>
#include <string.h>
#include <unistd.h>

struct answer {
    struct answer *next;
    char *question, *text;
};

static struct answer *cache;
static unsigned long asked;

/* The text of an answer, 80 to 99 letters. */
static char *reply(unsigned long number)
{
    size_t length = 80 + number % 20;
    char *text = malloc(length + 1);

    memset(text, 'a' + number % 26, length);
    text[length] = 0;
    return text;
}

static char *question(unsigned long number)
{
    char *text = malloc(24);

    snprintf(text, 24, "question %lu", number);
    return text;
}

static void keep(unsigned long number)
{
    struct answer *kept = malloc(sizeof *kept);

    kept->question = question(number);
    kept->text = reply(number);
    kept->next = cache;
    cache = kept;
}

int main(void)
{
    for (;;) {
        keep(asked++);
        usleep(1000);
    }
}
