/* A filter from a stranger: it reads a number of samples and then these, and writes each one, but none above 1000, and their sum. */
int main(void) {
    int n = read_word();
    int sum = 0;
    int i = 0;
    while (i < n) {
        int sample = read_word();
        if (sample > 1000) sample = 1000;
        write_word(sample);
        sum = sum + sample;
        i = i + 1;
    }
    write_word(sum);
    return 0;
}
