/* Divides 100 by the word that it reads. */
int main(void)
{
    write_word(100 / read_word());
    return 0;
}
