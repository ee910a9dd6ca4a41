/* A table: the checksum that most field buses put behind a frame (CRC-16, polynomial 1021, beginning FFFF), four bits at a time.
   Reads how many bytes there are and then these; writes the checksum. */
unsigned table[16] = { 0x0000, 0x1021, 0x2042, 0x3063, 0x4084, 0x50A5, 0x60C6, 0x70E7, 0x8108, 0x9129, 0xA14A, 0xB16B, 0xC18C, 0xD1AD, 0xE1CE, 0xF1EF };

unsigned fed(unsigned checksum, unsigned byte)
{
    checksum = (checksum << 4) ^ table[((checksum >> 12) ^ (byte >> 4)) & 15];
    checksum = (checksum << 4) ^ table[((checksum >> 12) ^ byte) & 15];
    return checksum & 0xFFFF;
}

int main(void)
{
    unsigned checksum = 0xFFFF;
    int left = read_word();
    for (; left > 0; left--) checksum = fed(checksum, (unsigned) read_word() & 255);
    write_word((int) checksum);
    return 0;
}
