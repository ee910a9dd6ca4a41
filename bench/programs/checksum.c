/* CRC-32 of an array of bytes by a table, as network and archive code has it. Input: turns. */
unsigned table[256];
unsigned char buffer[65536];

void fill_table(void)
{
    int i;
    for (i = 0; i < 256; i++) {
        unsigned c = i;
        int k;
        for (k = 0; k < 8; k++) {
            if (c & 1)
                c = c >> 1 ^ 0xEDB88320u;
            else
                c >>= 1;
        }
        table[i] = c;
    }
}

unsigned crc_of(int from, int count)
{
    unsigned crc = 0xFFFFFFFFu;
    int i;
    for (i = from; i < from + count; i++)
        crc = table[(crc ^ buffer[i]) & 255] ^ crc >> 8;
    return ~crc;
}

int main(void)
{
    int turns = read_word();
    unsigned x = 2463534242u;
    unsigned sum = 0;
    int t;
    if (turns <= 0)
        turns = 12;
    fill_table();
    for (t = 0; t < turns; t++) {
        int i;
        for (i = 0; i < 65536; i++) {
            x ^= x << 13;
            x ^= x >> 17;
            x ^= x << 5;
            buffer[i] = x;
        }
        for (i = 0; i < 64; i++)
            sum = sum * 33 + crc_of(i * 1024, 1024);
        sum ^= crc_of(0, 65536);
    }
    write_word((int)sum);
    return 0;
}
