/* A receiver of frames on a serial line, in wide C (docs/WIDE.md). The first word of the input says how many bytes follow.

   A frame is STX, a command, the number of bytes of data, these bytes, a sum and ETX. Inside a frame a byte that is STX, ETX
   or ESC is sent as ESC and then that byte with bit 5 turned over. The sum is that of command, number and data, modulo 256.
   For each frame the receiver writes a reply and then its values; for each mistake, minus the number of the error. */
#define STX  2
#define ETX  3
#define ESC  '\x1b'
#define FLIP 0x20u
#define LOW  0xffu

#define MOST_DATA 8
#define REGISTERS 16

enum state { IDLE, COMMAND, LENGTH, DATA, SUM, END };

enum { ACK = 'a', VALUE = 'v', NAMED = 'n' };

enum error { BAD_BYTE = 1, BAD_COMMAND, BAD_LENGTH, BAD_SUM, BAD_END, BAD_REGISTER };

typedef unsigned word;
typedef enum state phase;

static phase now = IDLE;
static word is_escaped = 0;

static word command;
static word length;
static word filled;
static word sum;
static unsigned char data[MOST_DATA];

static word registers[REGISTERS];
static word frames = 0;
static word errors = 0;

static void fail(enum error why)
{
    errors++;
    write_word(-why);
    now = IDLE;
}

/* How many bytes of data a command has, or -1 if there is no such command. */
static int data_of(word name)
{
    switch (name) {
    case '?':
    case 'z':
        return 0;
    case 'r':
        return 1;
    case 'w':
        return 2;
    case 'W':
        return 5;
    default:
        return -1;
    }
}

static inline word is_register(word number)
{
    return number < REGISTERS;
}

static word whole(void)
{
    register word value = 0;
    for (int i = 4; i > 0; i--)
        value = value << 8 | data[i];
    return value;
}

/* Does what a frame that has come asks for. */
static void obey(void)
{
    const word target = data[0];
    frames++;
    switch (command) {
    case '?':
        write_word(NAMED);
        write_word(frames);
        write_word(errors);
        break;
    case 'z':
        for (int i = 0; i < REGISTERS; i++) {
            if (i == 0) continue;           /* register 0 is kept */
            registers[i] = 0;
        }
        write_word(ACK);
        break;
    case 'r':
    case 'w':
    case 'W':
        if (!is_register(target)) {
            fail(BAD_REGISTER);
            break;
        }
        switch (command) {
        case 'W': registers[target] = whole(); write_word(ACK); break;
        case 'w': registers[target] = data[1]; write_word(ACK); break;
        default:  write_word(VALUE); write_word(registers[target]);
        }
    }
}

/* Takes a byte of a frame, after escapes are undone. */
static void take(word byte)
{
    switch (now) {
    case IDLE:
        fail(BAD_BYTE);
        break;
    case COMMAND:
        command = byte;
        sum = byte;
        now = LENGTH;
        if (data_of(command) < 0) fail(BAD_COMMAND);
        break;
    case LENGTH:
        length = byte;
        sum = sum + byte & LOW;
        filled = 0;
        now = length == 0 ? SUM : DATA;
        if (length != data_of(command)) fail(BAD_LENGTH);
        break;
    case DATA:
        data[filled] = byte;
        filled++;
        sum = sum + byte & LOW;
        if (filled == length) now = SUM;
        break;
    case SUM:
        now = END;
        if (byte != sum) fail(BAD_SUM);
        break;
    default:
        fail(BAD_END);
    }
}

int main(void)
{
    for (int left = read_word(); left > 0; left--) {
        word byte = read_word() & LOW;
        switch (byte) {
        case STX:                           /* a frame begins, wherever this is */
            now = COMMAND;
            is_escaped = 0;
            continue;
        case ETX:
            if (now == END) obey();
            else if (now != IDLE) fail(BAD_END);
            now = IDLE;
            continue;
        case ESC:
            is_escaped = 1;
            continue;
        default:
            if (is_escaped) byte ^= FLIP;
            is_escaped = 0;
        }
        take(byte);
    }
    return errors;
}
