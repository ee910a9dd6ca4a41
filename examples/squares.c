/* Writes 0, 1, 4 and ends with 3. With 3 steps only the first two are written: the run is still going. */
int main(void)
{
    int i;
    while (i < 3) {
        write_word(i * i);
        i = i + 1;
    }
    return i;
}
