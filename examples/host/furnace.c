/* The controller of a furnace: it reads a temperature in tenths of a degree, and writes the power of the heater, 0 to 100. */
int integral;

int limited(int x, int least, int most) {
    if (x < least) return least;
    if (x > most) return most;
    return x;
}

int main(void) {
    int wanted = read_word();
    for (;;) {
        int error = wanted - read_word();
        integral = limited(integral + error, -20000, 20000);
        write_word(limited(error / 2 + integral / 200, 0, 100));
    }
}
