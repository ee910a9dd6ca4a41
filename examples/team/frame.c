/* A byte array: bytes of a line become frames. A frame is stuffed so that no byte of it is 0 (COBS), and ends with a 0.
   Reads how many bytes there are and then these; writes each frame's length and its bytes, and -1 for a frame that is broken or longer than the array. */
unsigned char frame[64];
int length;
int left;      /* bytes up to the next place where a 0 was */
int full;      /* that place has no 0: a run of 254 bytes */
int broken;

void begin(void) { length = 0; left = 0; full = 1; broken = 0; }

void put(int byte)
{
    if (length == 64) { broken = 1; return; }
    frame[length] = byte;
    length++;
}

void end(void)
{
    int i;
    if (broken || left != 0) write_word(-1);
    else {
        write_word(length);
        for (i = 0; i < length; i++) write_word(frame[i]);
    }
    begin();
}

void take(int byte)
{
    if (byte == 0) { end(); return; }
    if (left > 0) { put(byte); left--; return; }
    if (!full) put(0);
    left = byte - 1;
    full = byte == 255;
}

int main(void)
{
    int count = read_word();
    begin();
    for (; count > 0; count--) take(read_word() & 255);
    return 0;
}
