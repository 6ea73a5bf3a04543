/* Messages, each a line of standard error, and the end if one is of a fault. */
#include <stdio.h>
#include <stdlib.h>
#include <string.h>

#include "common.h"
#include "escape.h"

enum { MOST_TEXT = 8192 };

void print_escaped(FILE *to, const char *text)
{
    char line[LONGEST_ESCAPE * MOST_TEXT];

    escape_text(line, sizeof line, text);
    fputs(line, to);
}

/* One line, whatever the names in it are: a core says which files a process had. */
void say(const char *form, va_list values)
{
    char text[MOST_TEXT], line[LONGEST_ESCAPE * MOST_TEXT];

    vsnprintf(text, sizeof text, form, values);
    escape_text(line, sizeof line, text);
    fprintf(stderr, "%s: %s\n", program, line);
}

void warn(const char *form, ...)
{
    va_list values;

    va_start(values, form);
    say(form, values);
    va_end(values);
}

void fail(const char *form, ...)
{
    va_list values;

    va_start(values, form);
    say(form, values);
    va_end(values);
    exit(REFUSED);
}

/* The words ask for the version or for help, or are wrong. */
void refuse_words(int count, char **words)
{
    if (count == 2 && !strcmp(words[1], "--version")) {
        printf("%s %s\n", program, VERSION);
        exit(0);
    }
    fputs(usage, stderr);
    if (count == 2 && (!strcmp(words[1], "--help") || !strcmp(words[1], "-h")))
        fputs(help, stderr);
    exit(REFUSED);
}

/* The list, with room for one more. */
void *grown(void *list, size_t count, size_t each)
{
    if (count & (count - 1))
        return list;
    list = realloc(list, (count ? 2 * count : 1) * each);
    if (!list)
        fail("out of memory");
    return list;
}
