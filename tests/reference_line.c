/*
 * The line that the session program prints for one record.
 */
#include "reference.h"

#include <stdlib.h>

/* A refused record has no answer, whatever stands beside its refusal. */
static void print_answer(FILE *out, uint64_t answer)
{
    uint8_t bytes[6];
    if ((answer & 0xFF) != 0)
        answer = 0;
    for (unsigned i = 0; i < 6; i++)
        bytes[i] = (uint8_t)(answer >> (16 + 8 * i) & 0xFF);
    switch (answer >> 8 & 0xFF) {
    case 0:
        fprintf(out, "-");
        break;
    case 1:
        fprintf(out, "%02X", bytes[0]);
        break;
    case 2:
        fprintf(out, "%02X%02X%02X%02X", bytes[0], bytes[1], bytes[2], bytes[3]);
        break;
    case 3:
        fprintf(out, "%u:%lu", bytes[0], (unsigned long)(answer >> 24));
        break;
    case 4:
        fprintf(out, "%02X%c", bytes[0], bytes[1] != 0 ? 'Y' : 'N');
        break;
    default:
        fprintf(stderr, "reference: no line for the answer %llX\n", (unsigned long long)answer);
        exit(1);
    }
}

void ref_print_line(FILE *out, unsigned long index, uint8_t number, uint64_t answer)
{
    fprintf(out, "%lu %02X %u ", index, number, (unsigned)(answer & 0xFF));
    print_answer(out, answer);
    fprintf(out, "\n");
}
