/* A field bus slave in the style of Modbus: frames with a check sum, a table of registers, limits and answers. Input: frames. */
unsigned char frame[256];
int length;
unsigned char answer[256];
int answered;
int holding[64];
unsigned char coils[32];
int address = 17;
int good;
int bad_sum;
int others;
int refused;
unsigned seed = 2463534242u;

unsigned next(void)
{
    seed ^= seed << 13;
    seed ^= seed >> 17;
    seed ^= seed << 5;
    return seed;
}

unsigned sum_of_frame(int n)
{
    unsigned crc = 0xffff;
    int i;
    int bit;
    for (i = 0; i < n; i++) {
        crc ^= frame[i];
        for (bit = 0; bit < 8; bit++) {
            if (crc & 1)
                crc = (crc >> 1) ^ 0xa001;
            else
                crc >>= 1;
        }
    }
    return crc;
}

unsigned sum_of_answer(int n)
{
    unsigned crc = 0xffff;
    int i;
    int bit;
    for (i = 0; i < n; i++) {
        crc ^= answer[i];
        for (bit = 0; bit < 8; bit++) {
            if (crc & 1)
                crc = (crc >> 1) ^ 0xa001;
            else
                crc >>= 1;
        }
    }
    return crc;
}

int word_at(int at) { return frame[at] * 256 + frame[at + 1]; }

void begin_answer(int function)
{
    answer[0] = address;
    answer[1] = function;
    answered = 2;
}

void put(int byte)
{
    answer[answered] = byte;
    answered++;
}

void put_word(int word)
{
    put(word >> 8);
    put(word);
}

void end_answer(void)
{
    unsigned crc = sum_of_answer(answered);
    put(crc);
    put(crc >> 8);
}

void refuse(int function, int why)
{
    begin_answer(function | 128);
    put(why);
    end_answer();
    refused++;
}

void read_holding(int from, int count)
{
    int i;
    if (count < 1 || count > 16 || from + count > 64) {
        refuse(3, 2);
        return;
    }
    begin_answer(3);
    put(2 * count);
    for (i = 0; i < count; i++)
        put_word(holding[from + i] & 0xffff);
    end_answer();
    good++;
}

void read_coils(int from, int count)
{
    int i;
    int byte = 0;
    if (count < 1 || count > 64 || from + count > 256) {
        refuse(1, 2);
        return;
    }
    begin_answer(1);
    put((count + 7) / 8);
    for (i = 0; i < count; i++) {
        if (coils[(from + i) / 8] >> ((from + i) % 8) & 1)
            byte |= 1 << (i % 8);
        if (i % 8 == 7 || i == count - 1) {
            put(byte);
            byte = 0;
        }
    }
    end_answer();
    good++;
}

void write_coil(int at, int value)
{
    if (at > 255 || (value != 0 && value != 0xff00)) {
        refuse(5, 3);
        return;
    }
    if (value)
        coils[at / 8] |= 1 << (at % 8);
    else
        coils[at / 8] &= ~(1 << (at % 8));
    begin_answer(5);
    put_word(at);
    put_word(value);
    end_answer();
    good++;
}

void write_holding(int at, int value)
{
    if (at > 63) {
        refuse(6, 2);
        return;
    }
    holding[at] = value;
    begin_answer(6);
    put_word(at);
    put_word(value);
    end_answer();
    good++;
}

void obey(void)
{
    int function;
    answered = 0;
    if (length < 8 || sum_of_frame(length - 2) != (unsigned) (frame[length - 2] + 256 * frame[length - 1])) {
        bad_sum++;
        return;
    }
    if (frame[0] != address) {
        others++;
        return;
    }
    function = frame[1];
    if (function == 1)
        read_coils(word_at(2), word_at(4));
    else if (function == 3)
        read_holding(word_at(2), word_at(4));
    else if (function == 5)
        write_coil(word_at(2), word_at(4));
    else if (function == 6)
        write_holding(word_at(2), word_at(4));
    else
        refuse(function, 1);
}

void make_frame(void)
{
    unsigned crc;
    unsigned kind = next() % 6;
    frame[0] = next() % 16 == 0 ? 18 : 17;
    frame[1] = kind == 0 ? 1 : kind < 3 ? 3 : kind == 3 ? 5 : kind == 4 ? 6 : next() % 20;
    frame[2] = 0;
    frame[3] = next() % 70;
    frame[4] = frame[1] == 5 ? (next() & 1) * 255 : 0;
    frame[5] = frame[1] == 5 ? 0 : next() % 20;
    crc = sum_of_frame(6);
    if (next() % 32 == 0)
        crc ^= 1;
    frame[6] = crc;
    frame[7] = crc >> 8;
    length = 8;
}

int main(void)
{
    int frames = read_word();
    unsigned seen = 0;
    int i;
    int k;
    for (i = 0; i < frames; i++) {
        make_frame();
        obey();
        for (k = 0; k < answered; k++)
            seen = seen * 31 + answer[k];
    }
    write_word(good);
    write_word(bad_sum);
    write_word(others);
    write_word(refused);
    write_word(seen);
    return 0;
}
