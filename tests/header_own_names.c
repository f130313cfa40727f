/*
 * A program that has functions of the old names of its own, and calls the library beside them. It calls one of the old
 * names too, as a part that was compiled before may: then the library's old names are linked, and it still has its own.
 */
#define SHARING_NO_OLD_NAMES
#include "sharing.h"

int archive_write(int number);
int archive_write(int number) { return number + 1; }

double archive_entry_answer = 0.5;
uint8_t gf256_add(uint8_t a, uint8_t b);

int main(void) {
    const uint8_t none[] = {0, 0}, byte[] = {7};
    const size_t lengths[] = {1};
    uint8_t file[7];
    sharing_answer a = sharing_archive_count(none, 2);
    if (a.refusal != 0 || a.value != 0 || archive_write(4) != 5) return 1;
    a = sharing_archive_write(byte, 1, lengths, 1, file, 7);
    if (a.refusal != 0 || a.value != 7 || file[6] != 7) return 2;
    return gf256_add(0x57, 0x83) != 0xd4 || sharing_gf256_add(0x57, 0x83) != 0xd4;
}
