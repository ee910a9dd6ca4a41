/* A reader of JSON by a table of states and a stack of kinds: counts what it finds and adds the numbers up. Input: turns. */
unsigned char text[2048];
int length;
int at;
unsigned char kinds[64];
int depth;
int deepest;
int strings;
int numbers;
int sum;
int faults;
unsigned seed = 99;

unsigned next(unsigned limit)
{
    seed ^= seed << 13;
    seed ^= seed >> 17;
    seed ^= seed << 5;
    return seed % limit;
}

void put(int byte)
{
    if (length < 2047) {
        text[length] = byte;
        length++;
    }
}

void put_number(int n)
{
    if (n < 0) {
        put(45);
        n = -n;
    }
    if (n >= 10)
        put_number(n / 10);
    put(48 + n % 10);
}

void put_string(void)
{
    int n = next(12);
    put(34);
    while (n > 0) {
        int c = 32 + next(90);
        if (c == 34 || c == 92)
            put(92);
        put(c);
        n--;
    }
    put(34);
}

void put_value(int level)
{
    unsigned kind = next(level > 4 ? 4 : 6);
    int n;
    int i;
    if (kind == 0 || kind == 1)
        put_number((int) next(20000) - 10000);
    else if (kind == 2)
        put_string();
    else if (kind == 3) {
        if (next(2)) {
            put(116); put(114); put(117); put(101);
        } else {
            put(110); put(117); put(108); put(108);
        }
    } else {
        n = next(5);
        put(kind == 4 ? 91 : 123);
        for (i = 0; i < n; i++) {
            if (i > 0)
                put(44);
            if (kind == 5) {
                put_string();
                put(58);
            }
            put(32);
            put_value(level + 1);
        }
        put(kind == 4 ? 93 : 125);
    }
}

int is_space(int c) { return c == 32 || c == 9 || c == 10 || c == 13; }

int is_digit(int c) { return c >= 48 && c <= 57; }

void skip_space(void)
{
    while (at < length && is_space(text[at]))
        at++;
}

void read_string(void)
{
    at++;
    while (at < length && text[at] != 34) {
        if (text[at] == 92)
            at++;
        at++;
    }
    if (at >= length)
        faults++;
    at++;
    strings++;
}

void read_number(void)
{
    int value = 0;
    int negative = 0;
    if (text[at] == 45) {
        negative = 1;
        at++;
    }
    if (!is_digit(text[at]))
        faults++;
    while (at < length && is_digit(text[at])) {
        value = value * 10 + (text[at] - 48);
        at++;
    }
    sum += negative ? -value : value;
    numbers++;
}

void read_word_of(int letters)
{
    while (letters > 0 && text[at] >= 97 && text[at] <= 122) {
        at++;
        letters--;
    }
    if (letters != 0)
        faults++;
}

/* 0: a value is wanted, 1: behind a value */
void read_text(void)
{
    int state = 0;
    at = 0;
    depth = 0;
    for (;;) {
        int c;
        skip_space();
        if (at >= length)
            break;
        c = text[at];
        if (state == 0) {
            state = 1;
            if (c == 34)
                read_string();
            else if (c == 45 || is_digit(c))
                read_number();
            else if (c == 116 || c == 110)
                read_word_of(4);
            else if (c == 91 || c == 123) {
                kinds[depth] = c;
                depth++;
                if (depth > deepest)
                    deepest = depth;
                at++;
                skip_space();
                if (text[at] != c + 2)
                    state = 0;
            } else {
                faults++;
                at++;
            }
        } else {
            at++;
            if (c == 44 || c == 58)
                state = 0;
            else if (c == 93 || c == 125) {
                if (depth == 0 || kinds[depth - 1] != c - 2)
                    faults++;
                else
                    depth--;
            } else
                faults++;
        }
    }
    if (depth != 0)
        faults++;
}

int main(void)
{
    int turns = read_word();
    int t;
    for (t = 0; t < turns; t++) {
        length = 0;
        put(91);
        while (length < 1200) {
            if (length > 1)
                put(44);
            put_value(0);
        }
        put(93);
        read_text();
    }
    write_word(strings);
    write_word(numbers);
    write_word(sum);
    write_word(deepest);
    write_word(faults);
    return 0;
}
