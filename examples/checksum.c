/* CRC-32 of some bytes, of which the first word of the input says how many. Of `9 49 50 51 52 53 54 55 56 57`, the bytes of
   123456789, it writes -873187034, which is the word 0xCBF43926. */
unsigned updated(unsigned crc, unsigned byte)
{
    crc ^= byte;
    for (int bit = 0; bit < 8; bit++)
        crc = crc & 1 ? crc >> 1 ^ 0xEDB88320 : crc >> 1;
    return crc;
}

int main(void)
{
    unsigned crc = ~0u;
    for (int left = read_word(); left > 0; left--)
        crc = updated(crc, read_word());
    write_word(~crc);
    return 0;
}
