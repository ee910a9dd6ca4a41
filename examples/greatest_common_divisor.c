/* Euclid's algorithm on 1071 and 462: ends with 21. */
int main(void)
{
    int a = 1071, b = 462;
    while (b != 0) {
        int rest = a % b;
        a = b;
        b = rest;
    }
    return a;
}
