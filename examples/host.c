/* A host in C: reads a circuit file, checks it, plans it, and prints each wire's bound and how much of the budget it uses, or says in words why
   the file is refused and at which gate.

       host FILE          or       host < FILE

   Exit status: 0 where the circuit is taken, 1 where it is refused, 2 where the file cannot be read. */
#include <stdio.h>

#include "olwyddreg.h"

enum { HEAD = 23, GATE = 5, LONGEST_FILE = HEAD + GATE * 4096, WIRES = 1024 + 4096 };

/* One byte more than any file has, so that a longer one is seen to be too long. */
static uint8_t file[LONGEST_FILE + 1];
static uint8_t bounds[4 * WIRES];

static unsigned long field(const uint8_t *at, int bytes)
{
    unsigned long value = 0;
    for (int i = 0; i < bytes; i++)
        value = value * 256 + at[i];
    return value;
}

static const char *meaning(enum gat_number number)
{
    switch (number) {
    case GAT_PARAMETER: return "a parameter is outside its range";
    case GAT_COUNT: return "the number of inputs or gates is outside its range";
    case GAT_BUFFER: return "the buffer of bounds has the wrong length";
    case GAT_GATE: return "a gate's kind, an operand or NOT's right is wrong";
    case GAT_BUDGET: return "the noise could pass a quarter of the modulus";
    case GAT_MARK: return "this is no circuit file, or one of an unknown version";
    case GAT_FILE: return "the file is cut short or too long";
    default: return "a refusal that no file has";
    }
}

static int refused(uint64_t answer)
{
    enum gat_number number = GAT_NUMBER(answer);
    printf("refused (%d): %s", (int)number, meaning(number));
    if (number == GAT_GATE || number == GAT_BUDGET)
        printf(", at gate %u", GAT_PLACE(answer));
    printf("\n");
    return 1;
}

static const char *kind_of(unsigned long wire, unsigned long inputs)
{
    static const char *const kinds[] = {"XOR", "AND", "NOT"};
    return wire < inputs ? "IN" : kinds[file[HEAD + GATE * (wire - inputs)]];
}

static void table(unsigned long inputs, unsigned long wires)
{
    unsigned long largest = (field(file + 7, 4) - 1) / 4;
    printf("  wire  kind      bound  of the budget\n");
    for (unsigned long wire = 0; wire < wires; wire++) {
        unsigned long bound = field(bounds + 4 * wire, 4);
        printf("%6lu  %-4s %10lu  %5.1f%%\n", wire, kind_of(wire, inputs), bound, largest ? 100.0 * (double)bound / (double)largest : 0.0);
    }
    printf("taken: the output's bound is %lu, and the largest that fits is %lu\n", field(bounds + 4 * (wires - 1), 4), largest);
}

static int host(FILE *in)
{
    size_t length = fread(file, 1, sizeof file, in);
    if (ferror(in)) {
        perror("host: the circuit file cannot be read");
        return 2;
    }
    uint64_t answer = gat_check(file, length);
    if (answer != 0)
        return refused(answer);
    unsigned long inputs = field(file + 19, 2);
    unsigned long wires = inputs + field(file + 21, 2);
    answer = gat_plan(file, length, bounds, 4 * wires);
    if (answer != 0)
        return refused(answer);
    table(inputs, wires);
    return 0;
}

int main(int count, char **words)
{
    if (count < 2)
        return host(stdin);
    FILE *in = fopen(words[1], "rb");
    if (in == NULL) {
        perror(words[1]);
        return 2;
    }
    int status = host(in);
    fclose(in);
    return status;
}
