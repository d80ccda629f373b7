/* The FM9001 in C, written plainly from the tables of docs/languages/fm9001.md: what runs are compared with.

   Standard input has machines, one after the other, each as numbers in decimal: base, size, final program counter, budget, sixteen registers,
   flags (8 for c, 4 for v, 2 for n, 1 for z), and the words of the window from the base on. For each machine it prints what `run` of an image
   prints whose one slot m, of integers, is the window from its last word down to its first. */
#include <inttypes.h>
#include <stdio.h>
#include <stdlib.h>

enum { C = 8, V = 4, N = 2, Z = 1 };
enum { REGISTER, INDIRECT, PRE_DECREMENT, POST_INCREMENT };

static uint32_t base, size, final_pc, budget, registers[16], flags, *window, outside;

static int is_inside(uint32_t address)
{
    outside = address;
    return address >= base && address - base < size;
}

static int holds(int condition)
{
    int c = !!(flags & C), v = !!(flags & V), n = !!(flags & N), z = !!(flags & Z);
    int rows[] = { !c, c, !v, v, !n, n, !z, z, !c && !z, c || z, n == v, n != v, n == v && !z, n != v || z, 1, 0 };
    return rows[condition];
}

static int reads_b(int operation)
{
    return (operation >= 2 && operation <= 3) || (operation >= 6 && operation <= 7) || (operation >= 11 && operation <= 13);
}

/* A result by its exact values: as plain numbers for the carry, and as signed ones for the overflow. */
static uint32_t sum(int64_t plain, int64_t exact, uint32_t *made)
{
    *made = (plain < 0 || plain >= INT64_C(4294967296) ? C : 0) | (exact < INT32_MIN || exact > INT32_MAX ? V : 0);
    return (uint32_t)plain;
}

static uint32_t result(int operation, uint32_t a, uint32_t b, uint32_t *made)
{
    int64_t c = !!(flags & C), plain_a = a, plain_b = b, signed_a = (int32_t)a, signed_b = (int32_t)b;
    *made = 0;
    switch (operation) {
    case 1: return sum(plain_a + 1, signed_a + 1, made);
    case 2: return sum(plain_a + plain_b + c, signed_a + signed_b + c, made);
    case 3: return sum(plain_a + plain_b, signed_a + signed_b, made);
    case 4: return sum(-plain_a, -signed_a, made);
    case 5: return sum(plain_a - 1, signed_a - 1, made);
    case 6: return sum(plain_b - plain_a - c, signed_b - signed_a - c, made);
    case 7: return sum(plain_b - plain_a, signed_b - signed_a, made);
    case 8: *made = a % 2 ? C : 0; return a / 2 + (c ? UINT32_C(0x80000000) : 0);
    case 9: *made = a % 2 ? C : 0; return a / 2 + (a & UINT32_C(0x80000000));
    case 10: *made = a % 2 ? C : 0; return a / 2;
    case 11: return a ^ b;
    case 12: return a | b;
    case 13: return a & b;
    case 14: return ~a;
    default: return a;      /* MOVE and M15 */
    }
}

/* The address of an operand that is no register. */
static uint32_t address_of(int mode, int reg)
{
    return mode == PRE_DECREMENT ? registers[reg] - 1 : registers[reg];
}

static void move(int mode, int reg)
{
    if (mode == PRE_DECREMENT)
        registers[reg] -= 1;
    if (mode == POST_INCREMENT)
        registers[reg] += 1;
}

/* One instruction; where it needs an address outside, the answer is 0, and the machine stands somewhere in the middle of it. */
static int step(void)
{
    if (!is_inside(registers[15]))
        return 0;
    uint32_t word = window[registers[15] - base], a, b = 0, made;
    registers[15] += 1;

    int operation = word >> 24 & 15, condition = word >> 20 & 15, mode_b = word >> 14 & 3, reg_b = word >> 10 & 15;
    if (word >> 9 & 1) {
        a = word & 511;
        a = a >= 256 ? a - 512 : a;
    } else {
        int mode_a = word >> 4 & 3, reg_a = word & 15;
        a = registers[reg_a];
        if (mode_a != REGISTER) {
            if (!is_inside(address_of(mode_a, reg_a)))
                return 0;
            a = window[address_of(mode_a, reg_a) - base];
        }
        move(mode_a, reg_a);
    }

    uint32_t address = address_of(mode_b, reg_b);
    int stores = holds(condition);
    if (mode_b != REGISTER && (stores || reads_b(operation)) && !is_inside(address))
        return 0;
    if (reads_b(operation))
        b = mode_b == REGISTER ? registers[reg_b] : window[address - base];
    uint32_t to = result(operation, a, b, &made);
    if (stores && mode_b == REGISTER)
        registers[reg_b] = to;
    if (stores && mode_b != REGISTER)
        window[address - base] = to;
    move(mode_b, reg_b);
    made |= (to >> 31 ? N : 0) | (to == 0 ? Z : 0);
    uint32_t set = word >> 16 & 15;
    flags = (flags & ~set) | (made & set);
    return 1;
}

static void run(void)
{
    uint32_t count = 0;
    for (; registers[15] != final_pc && count < budget; count++)
        if (!step()) {
            printf("outside %08" PRIx32 " after %" PRIu32 "\n", outside, count);
            return;
        }
    if (registers[15] != final_pc) {
        printf("unfinished %" PRIu32 "\n", count);
        return;
    }
    printf("finished %" PRIu32 "\nm = (", count);
    for (uint32_t at = size; at > 0; at--)
        printf("%" PRId32 "%s", (int32_t)window[at - 1], at == 1 ? ")\n" : " ");
}

static int number(uint32_t *to)
{
    return scanf("%" SCNu32, to) == 1;
}

int main(void)
{
    while (number(&base)) {
        int whole = number(&size) && number(&final_pc) && number(&budget);
        for (int r = 0; r < 16; r++)
            whole = whole && number(&registers[r]);
        whole = whole && number(&flags) && (window = malloc(size * sizeof *window));
        for (uint32_t at = 0; whole && at < size; at++)
            whole = number(&window[at]);
        if (!whole)
            return 1;
        run();
        free(window);
    }
    return 0;
}
