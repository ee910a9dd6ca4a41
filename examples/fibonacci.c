/* The first ten Fibonacci numbers. */
int main(void)
{
    int a = 0, b = 1, left = 10;
    while (left > 0) {
        int sum = a + b;
        write_word(a);
        a = b;
        b = sum;
        left = left - 1;
    }
    return 0;
}
