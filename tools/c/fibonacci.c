/* Fibonacci numbers from a table and by recursion: the answer is the 15th, 610, if both agree. */
static unsigned table[48];

static unsigned __attribute__((noinline)) fibonacci(unsigned n)
{
    return n < 2 ? n : fibonacci(n - 1) + fibonacci(n - 2);
}

int main(void)
{
    table[1] = 1;
    for (int i = 2; i < 48; i++)
        table[i] = table[i - 1] + table[i - 2];
    for (unsigned i = 0; i < 16; i++)
        if (fibonacci(i) != table[i])
            return -1;
    return (int)table[15];
}
