/* A program from before the prefix: it calls by the old names alone, which the header declares unless it is told not to. */
#include "sharing.h"
#include <string.h>

int main(void) {
    const uint8_t contents[] = {7, 8, 9}, expected[] = {2, 0, 10, 0, 1, 0, 11, 0, 2, 0, 7, 8, 9};
    const size_t lengths[] = {1, 2};
    uint8_t file[13];
    sharing_answer a = archive_write(contents, 3, lengths, 2, file, 13);
    if (a.refusal != 0 || a.value != 13 || memcmp(file, expected, 13) != 0) return 1;
    a = archive_count(file, 13);
    if (a.refusal != 0 || a.value != 2) return 2;
    archive_entry_answer e = archive_entry(file, 13, 1);
    if (e.refusal != 0 || e.offset != 11 || e.length != 2) return 3;
    gf256_inverse_answer i = gf256_inverse(2);
    if (i.exists != 1 || i.inverse != 0x8d || gf256_inverse(0).exists != 0) return 4;
    if (gf256_add(0x57, 0x83) != 0xd4 || gf256_mul(0x57, 0x83) != 0xc1) return 5;
    return gf256_mul_by_shifting(0x57, 0x13) != 0xfe;
}
