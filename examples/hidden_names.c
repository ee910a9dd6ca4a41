/* An inner declaration hides an outer one from its own initialiser on, and starts at 0: writes 5, ends with 1. */
int main(void)
{
    int x = 1;
    {
        int x = x + 5;
        write_word(x);
    }
    return x;
}
