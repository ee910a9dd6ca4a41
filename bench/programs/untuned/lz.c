/* A packer for byte streams with a window and a hash table of last places, and its unpacker, which has to give the text back. Input: turns. */
unsigned char text[4096];
unsigned char packed[8192];
unsigned char unpacked[4096];
int last[1024];
int packed_length;
int unpacked_length;
unsigned state = 12345;

unsigned next(unsigned limit)
{
    state = state * 1103515245 + 12345;
    return (state >> 16) % limit;
}

void make_text(void)
{
    int at = 0;
    while (at < 4096) {
        if (at > 64 && next(4) != 0) {
            int from = at - 1 - next(60);
            int count = 3 + next(20);
            while (count > 0 && at < 4096) {
                text[at] = text[from];
                at++;
                from++;
                count--;
            }
        } else {
            text[at] = 97 + next(26);
            at++;
        }
    }
}

int hash_at(int at)
{
    return (text[at] * 33 * 33 + text[at + 1] * 33 + text[at + 2]) & 1023;
}

void emit(int byte)
{
    packed[packed_length] = byte;
    packed_length++;
}

int match_length(int from, int at)
{
    int n = 0;
    while (n < 66 && at + n < 4096 && text[from + n] == text[at + n])
        n++;
    return n;
}

void flush_literals(int from, int to)
{
    while (from < to) {
        int n = to - from;
        int i;
        if (n > 128)
            n = 128;
        emit(n - 1);
        for (i = 0; i < n; i++)
            emit(text[from + i]);
        from += n;
    }
}

void pack(void)
{
    int at = 0;
    int literals = 0;
    int i;
    packed_length = 0;
    for (i = 0; i < 1024; i++)
        last[i] = -1;
    while (at < 4096) {
        int length = 0;
        int from = -1;
        if (at + 3 <= 4096) {
            int h = hash_at(at);
            from = last[h];
            last[h] = at;
            if (from >= 0 && at - from <= 255)
                length = match_length(from, at);
        }
        if (length >= 4) {
            flush_literals(literals, at);
            emit(128 + length - 4);
            emit(at - from);
            at += length;
            literals = at;
        } else
            at++;
    }
    flush_literals(literals, at);
}

void unpack(void)
{
    int at = 0;
    unpacked_length = 0;
    while (at < packed_length) {
        int head = packed[at];
        at++;
        if (head < 128) {
            int n = head + 1;
            while (n > 0) {
                unpacked[unpacked_length] = packed[at];
                unpacked_length++;
                at++;
                n--;
            }
        } else {
            int n = head - 128 + 4;
            int from = unpacked_length - packed[at];
            at++;
            while (n > 0) {
                unpacked[unpacked_length] = unpacked[from];
                unpacked_length++;
                from++;
                n--;
            }
        }
    }
}

int main(void)
{
    int turns = read_word();
    int wrong = 0;
    int total = 0;
    int t;
    int i;
    for (t = 0; t < turns; t++) {
        make_text();
        pack();
        unpack();
        total += packed_length;
        if (unpacked_length != 4096)
            wrong++;
        for (i = 0; i < 4096; i++)
            if (text[i] != unpacked[i])
                wrong++;
    }
    write_word(total);
    write_word(wrong);
    return 0;
}
