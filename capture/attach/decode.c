/* How long an instruction is, and what in it depends on where it stands (Intel SDM, volume 2, chapter 2 and appendix A). Only the
 * kinds are known that functions of a C library mostly have, without vectors of AVX; of all others nothing is said. */
#include <string.h>

#include "attach.h"

enum { MODRM = 1, BYTE = 2, WORD = 4, WIDE = 8, SHORT_JUMP = 16, NEAR_JUMP = 32, CONDITIONAL = 64, PLAIN = 128, BY_MODRM = 256,
       FIXED = 512, MOST_PREFIXES = 4 };

/* What follows the operation of one byte: an operand, and constants of one byte, of a word of 32 bits, or as wide as the register. */
static int form_of(uint8_t op)
{
    if ((op >= 0x50 && op <= 0x5f) || (op >= 0x90 && op <= 0x99))
        return PLAIN;
    if (op < 0x40 && (op & 7) < 6)
        return (op & 7) < 4 ? MODRM : (op & 7) == 4 ? BYTE : WORD;
    if (op >= 0x70 && op <= 0x7f)
        return SHORT_JUMP | CONDITIONAL;
    if (op >= 0xb0 && op <= 0xbf)
        return op < 0xb8 ? BYTE : WIDE;
    switch (op) {
    case 0x63: case 0x84: case 0x85: case 0x86: case 0x87: case 0x88: case 0x89: case 0x8a: case 0x8b: case 0x8d:
    case 0xd1: case 0xd3: return MODRM;
    case 0x6b: case 0x80: case 0x83: case 0xc0: case 0xc1: return MODRM | BYTE;
    case 0x69: case 0x81: return MODRM | WORD;
    case 0xc6: case 0xc7: case 0xf6: case 0xf7: case 0xfe: case 0xff: return MODRM | BY_MODRM;
    case 0x6a: case 0xa8: return BYTE;
    case 0x68: case 0xa9: return WORD;
    case 0xc3: case 0xc9: case 0xcc: case 0xf4: return PLAIN | FIXED;
    case 0xe8: return NEAR_JUMP | FIXED;
    case 0xe9: return NEAR_JUMP;
    case 0xeb: return SHORT_JUMP;
    default: return 0;
    }
}

/* The same after 0f. */
static int form_of_second(uint8_t op)
{
    static const uint8_t with_operand[] = { 0x0d, 0x18, 0x1f, 0x74, 0x75, 0x76, 0x7e, 0x7f, 0xa3, 0xab, 0xae, 0xaf,
                                            0xb0, 0xb1, 0xb3, 0xb6, 0xb7, 0xbb, 0xbc, 0xbd, 0xbe, 0xbf, 0xc0, 0xc1 };
    bool is_of_vectors = (op >= 0x10 && op <= 0x17) || (op >= 0x28 && op <= 0x2f) || (op >= 0x51 && op <= 0x6f)
        || (op >= 0xd1 && op <= 0xfe);

    if (op >= 0x80 && op <= 0x8f)
        return NEAR_JUMP | CONDITIONAL;
    if (op == 0x05 || op == 0x0b)
        return PLAIN | FIXED;
    if (op >= 0xc8 && op <= 0xcf)
        return PLAIN;
    if (op == 0x70 || op == 0xba || op == 0xc6)
        return MODRM | BYTE;
    if (is_of_vectors || (op & 0xf0) == 0x40 || (op & 0xf0) == 0x90)
        return MODRM;
    return memchr(with_operand, op, sizeof with_operand) ? MODRM : 0;
}

/* The bytes of an operand in memory or of a register, and whether its address is relative to rip. */
static int operand_bytes(const uint8_t *at, bool *is_relative)
{
    int mod = at[0] >> 6, rm = at[0] & 7, bytes = 1;

    *is_relative = !mod && rm == 5;
    if (mod != 3 && rm == 4)
        bytes += !mod && (at[1] & 7) == 5 ? 5 : 1;
    return bytes + (mod == 1 ? 1 : mod == 2 || *is_relative ? 4 : 0);
}

/* Of the operations whose kind the operand's byte tells. */
static int form_by_operand(uint8_t op, uint8_t operand)
{
    int kind = operand >> 3 & 7, constant = op & 1 ? WORD : BYTE;

    if (op == 0xff && (kind == 2 || kind == 4))
        return MODRM | FIXED;                           /* call and jmp by a pointer */
    if (op == 0xfe || op == 0xff)
        return kind < 2 || (op == 0xff && kind == 6) ? MODRM : 0;    /* inc, dec, push */
    if (op == 0xc6 || op == 0xc7)
        return kind ? 0 : MODRM | constant;             /* mov, but not xbegin, which has an address */
    return kind > 1 ? MODRM : MODRM | constant;         /* test, or not, neg, mul, div */
}

static bool is_prefix(uint8_t byte)
{
    return byte == 0x66 || byte == 0x64 || byte == 0xf0 || byte == 0xf2 || byte == 0xf3 || byte == 0x2e;
}

struct instruction decode(const uint8_t *code)
{
    struct instruction found = { 0 };
    int n = 0, form, wide = 0, word = 4;

    if (!memcmp(code, "\xf3\x0f\x1e\xfa", 4))
        return (struct instruction){ .bytes = 4 };      /* endbr64 */
    for (; is_prefix(code[n]); n++) {
        word = code[n] == 0x66 ? 2 : word;
        if (n == MOST_PREFIXES)
            return found;
    }
    if ((code[n] & 0xf0) == 0x40)
        wide = code[n++] >> 3 & 1;
    uint8_t op = code[n++];
    form = op == 0x0f ? form_of_second(code[n++]) : form_of(op);
    if (form & BY_MODRM)
        form = form_by_operand(op, code[n]);
    if (!form || (form & (SHORT_JUMP | NEAR_JUMP) && word == 2))
        return found;
    word = wide ? 4 : word;     /* REX.W goes before 0x66 */
    if (form & MODRM) {
        bool is_relative;
        int bytes = operand_bytes(code + n, &is_relative);
        found.relative = is_relative ? n + 1 : 0;
        n += bytes;
    }
    found.branch = form & SHORT_JUMP ? 1 : form & NEAR_JUMP ? 4 : 0;
    found.is_conditional = form & CONDITIONAL;
    found.is_fixed = form & FIXED;
    found.bytes = n + found.branch + (form & BYTE ? 1 : 0) + (form & WORD ? word : 0) + (form & WIDE ? wide ? 8 : word : 0);
    return found;
}
