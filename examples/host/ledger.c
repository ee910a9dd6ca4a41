/* A ledger that lives in memory. It reads orders, and writes an answer to each:
     1 ACCOUNT AMOUNT    pays in:        the new balance, or -1 if there is no such account or it would be too large
     2 FROM TO AMOUNT    transfers:      1, or -1 if there are no such accounts or it has not so much
     3 ACCOUNT           says a balance: the balance, or -1 if there is no such account
     0                   ends; the program returns the sum of all balances */
int balance[256];
int total;

int is_account(int a) {
    return a >= 0 && a < 256;
}

int pay_in(int a, int amount) {
    if (!is_account(a) || amount < 0 || amount > 1000000 || total > 1000000000) return -1;
    balance[a] = balance[a] + amount;
    total = total + amount;
    return balance[a];
}

int transfer(int from, int to, int amount) {
    if (!is_account(from) || !is_account(to) || amount < 0 || balance[from] < amount) return -1;
    balance[from] = balance[from] - amount;
    balance[to] = balance[to] + amount;
    return 1;
}

int main(void) {
    int order = read_word();
    while (order != 0) {
        int a = read_word();
        if (order == 1) write_word(pay_in(a, read_word()));
        if (order == 2) {
            int to = read_word();
            write_word(transfer(a, to, read_word()));
        }
        if (order == 3) {
            if (is_account(a)) write_word(balance[a]);
            else write_word(-1);
        }
        order = read_word();
    }
    int sum = 0;
    int i = 0;
    while (i < 256) {
        sum = sum + balance[i];
        i = i + 1;
    }
    return sum;
}
