/* A table and a loop: a heater by a thermistor. Readings of 10 bits become tenths of a degree by a table, straight between its entries; the heater
   goes on below 45.0 and off above 55.0, and never on where the sensor is broken. Reads how many readings there are and then these; writes the tenths and
   1 or 0 for the heater. */
int at[9] = { 64, 128, 192, 256, 384, 512, 640, 768, 896 };
int tenths[9] = { 1059, 790, 650, 550, 400, 250, 120, -30, -210 };
int heats;

int temperature(int reading)
{
    int i = 1;
    while (i < 8 && reading > at[i]) i++;
    return tenths[i - 1] + (tenths[i] - tenths[i - 1]) * (reading - at[i - 1]) / (at[i] - at[i - 1]);
}

int main(void)
{
    int left = read_word();
    for (; left > 0; left--) {
        int reading = read_word();
        int now;
        if (reading < at[0] || reading > at[8]) { heats = 0; write_word(9999); write_word(0); continue; }
        now = temperature(reading);
        if (now < 450) heats = 1;
        else if (now > 550) heats = 0;
        write_word(now);
        write_word(heats);
    }
    return 0;
}
