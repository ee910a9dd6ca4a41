/* The primes below 30, by a sieve: writes 2, 3, 5, 7, 11, 13, 17, 19, 23, 29. */
int composite[30];

void cross_out(int prime)
{
    for (int i = prime * prime; i < 30; i += prime)
        composite[i] = 1;
}

int main(void)
{
    for (int i = 2; i < 30; i++)
        if (!composite[i]) {
            write_word(i);
            cross_out(i);
        }
    return 0;
}
