/* What was written before a run goes wrong stays written: 5, then `wrong Division`. */
int main(void)
{
    write_word(5);
    write_word(1 / 0);
}
