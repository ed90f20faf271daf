/* CRC-32 over a table of 256 words: the check value of the digits 1 to 9, CBF43926. */
#include <stddef.h>
#include <stdint.h>

static uint32_t table[256];

/* The polynomial of IEEE 802.3, lowest bit first. */
static void fill_table(void)
{
    for (uint32_t i = 0; i < 256; i++) {
        uint32_t word = i;
        for (int bit = 0; bit < 8; bit++)
            word = word & 1 ? word >> 1 ^ 0xEDB88320 : word >> 1;
        table[i] = word;
    }
}

static uint32_t crc32(const char *text, size_t length)
{
    uint32_t crc = 0xFFFFFFFF;
    for (size_t i = 0; i < length; i++)
        crc = crc >> 8 ^ table[(crc ^ (uint8_t)text[i]) & 0xFF];
    return ~crc;
}

int main(void)
{
    static const char digits[] = "123456789";
    fill_table();
    return (int)crc32(digits, sizeof digits - 1);
}
