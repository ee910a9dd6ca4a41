/* A state machine: a crossing's lamp with a button. Reads how many seconds to go on, then for each 1 where the button is down, else 0;
   writes the lamp at each second: 1 green, 2 yellow, 3 red, 4 red and yellow. */
int state = 1;
int since;      /* seconds in this state */
int asked;      /* the button was down since it was last green */
int lasts[5] = { 0, 6, 2, 4, 1 };

void second(int button)
{
    if (button) asked = 1;
    since++;
    if (since < lasts[state]) return;
    if (state == 1) { if (!asked) return; state = 2; }
    else if (state == 2) { state = 3; asked = 0; }
    else if (state == 3) state = 4;
    else state = 1;
    since = 0;
}

int main(void)
{
    int left = read_word();
    for (; left > 0; left--) { second(read_word()); write_word(state); }
    return 0;
}
