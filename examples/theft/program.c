/* The price of a delivery: 4 for each of the 7 pieces, and 100 in any case. The answer is 128. */
int pieces = 7, base = 100;

int main(void)
{
    return 4 * pieces + base;
}
