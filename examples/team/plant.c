/* A closed loop: each word that is written asks for the heater's power in percent, and the next word that is read answers with the temperature a
   second later, in tenths of a degree. Holds 45.0 degrees for twenty seconds, then ends with the number of seconds that it took, or with 0 after
   200 seconds. */
int main(void)
{
    int power = 0, sum = 0, held = 0, second;
    for (second = 1; second <= 200; second++) {
        int now, off;
        write_word(power);
        now = read_word();
        off = 450 - now;
        held = off > -5 && off < 5 ? held + 1 : 0;
        if (held == 20) return second;
        sum += off;
        power = off / 4 + sum / 24;
        if (power < 0) { power = 0; sum -= off; }
        if (power > 100) { power = 100; sum -= off; }
    }
    return 0;
}
