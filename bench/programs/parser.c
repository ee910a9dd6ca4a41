/* Sums, products and parentheses of decimal numbers in an array of bytes: written into it, then read and computed, by descent. Input: turns. */
unsigned char text[4096];
int at;
int end;
unsigned x = 88172645;

unsigned next(unsigned limit)
{
    x ^= x << 13;
    x ^= x >> 17;
    x ^= x << 5;
    return x % limit;
}

void put(int byte)
{
    text[end] = byte;
    end++;
}

void put_number(unsigned n)
{
    if (n >= 10)
        put_number(n / 10);
    put(48 + n % 10);
}

void put_sum(int depth)
{
    int terms = 1 + next(3);
    int i;
    for (i = 0; i < terms; i++) {
        if (i > 0) {
            if (next(2))
                put(43);
            else
                put(42);
        }
        if (depth > 0 && next(3) > 0) {
            put(40);
            put_sum(depth - 1);
            put(41);
        } else
            put_number(next(100000));
    }
}

int sum(void);

int factor(void)
{
    int value = 0;
    if (text[at] == 40) {
        at++;
        value = sum();
        at++;
        return value;
    }
    while (text[at] >= 48 && text[at] <= 57) {
        value = value * 10 + (text[at] - 48);
        at++;
    }
    return value;
}

int product(void)
{
    int value = factor();
    while (text[at] == 42) {
        at++;
        value *= factor();
    }
    return value;
}

int sum(void)
{
    int value = product();
    while (text[at] == 43) {
        at++;
        value += product();
    }
    return value;
}

int main(void)
{
    int turns = read_word();
    unsigned total = 0;
    int t;
    if (turns <= 0)
        turns = 2000;
    for (t = 0; t < turns; t++) {
        int k;
        end = 0;
        put_sum(4);
        put(0);
        for (k = 0; k < 8; k++) {
            at = 0;
            total = total * 31 + sum();
        }
        total ^= at;
    }
    write_word((int)total);
    return 0;
}
