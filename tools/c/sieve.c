/* The sieve of Eratosthenes: the answer is the number of primes below 1,000, which is 168, and the last, 997. */
#define LIMIT 1000
static unsigned char composite[LIMIT];
static unsigned short primes[200];

int main(void)
{
    int count = 0;
    for (int i = 2; i < LIMIT; i++) {
        if (composite[i])
            continue;
        primes[count++] = (unsigned short)i;
        for (int j = i + i; j < LIMIT; j += i)
            composite[j] = 1;
    }
    return count * 1000 + primes[count - 1];
}
