/* What attach/decode.c and moved.c make of code. Reads lines FROM SIZE TO HEX: a function's address and size, where
 * its first instructions are to go, and its bytes. Prints for each how long its first instruction is, where in it
 * an address relative to rip is and how long one of a jump is, how many bytes are taken, and what they become. */
#include <inttypes.h>
#include <stdio.h>
#include <string.h>

#include "../attach/attach.h"

enum { LINE = 512, CODE = 32 };

/* What moved.c needs of a process, which is none here. */
const char *const function_names[FUNCTIONS];
void get(const struct target *target, uint64_t address, void *to, size_t size)
{
    (void)target, (void)address, memset(to, 0, size);
}

void fail(const char *format, ...) { fputs(format, stderr); _Exit(2); }

uint64_t find_symbol(const struct module *module, const char *name, uint64_t *size)
{
    (void)module, (void)name;
    return *size = 0;
}

int main(void)
{
    char line[LINE];
    uint64_t from, size, to;
    int at;

    while (fgets(line, sizeof line, stdin)
           && sscanf(line, "%" SCNx64 " %" SCNx64 " %" SCNx64 " %n", &from, &size, &to, &at) == 3) {
        uint8_t code[CODE] = { 0 };
        for (int k = 0; k < CODE && sscanf(line + at + 2 * k, "%2hhx", code + k) == 1; k++)
            ;
        struct instruction first = decode(code);
        struct moved moved = move_code(code, from, size, to);
        printf("%d %d %d %d ", first.bytes, first.relative, first.branch, moved.taken);
        for (int k = 0; moved.taken && k < moved.bytes; k++)
            printf("%02x", moved.code[k]);
        puts(moved.taken ? "" : "-");
    }
    return 0;
}
