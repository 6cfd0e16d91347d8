/* How many bits of a number are set: each round of the loop clears the lowest that is. For 6 the answer is 2. */
unsigned number = 6;

int main(void)
{
    int ones = 0;
    for (unsigned rest = number; rest != 0; rest &= rest - 1)
        ones++;
    return ones;
}
