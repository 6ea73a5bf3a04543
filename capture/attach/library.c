/* The library itself, which the process loads: no file of it needs to be found later. */
__asm__(".pushsection .rodata\n"
    ".global attached_library, attached_library_end\n"
    ".balign 16\n"
    "attached_library: .incbin \"leak_attach.so\"\n"
    "attached_library_end:\n"
    ".popsection\n");
