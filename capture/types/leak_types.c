/* leak_types < FILE: which types the variables of an ELF file have, by its debug information (DWARF; read by libdw of
 * elfutils). leak_what runs it with limits of time and memory and without rights, since the file may be anybody's. */
#include <unistd.h>

#include "types.h"

const char program[] = "leak_types", usage[] = "usage: leak_types < FILE\n", help[] =
    "Writes to standard output the variables of a program or library and their types, from its debug information, for\n"
    "leak_what --types.\n\n"
    "status: 0; 2 if there is no answer, with a line on standard error\n";

int main(int count, char **words)
{
    struct debug debug;
    Dwarf *dwarf;

    if (count > 1)
        refuse_words(count, words);
    dwarf = dwarf_begin(STDIN_FILENO, DWARF_C_READ);
    if (!dwarf)
        fail("standard input: %s", dwarf_errmsg(-1));
    debug = read_debug(dwarf);
    write_types(&debug);
    put_text("end\n");
    put_end();
    return 0;
}
