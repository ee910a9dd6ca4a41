/* Recursion, and unsigned arithmetic modulo 2^32: writes 479001600, and then 1932053504 for 13 factorial. */
unsigned factorial(unsigned n)
{
    return n ? n * factorial(n - 1) : 1;
}

int main(void)
{
    write_word(factorial(12));
    write_word(factorial(13));
    return 0;
}
