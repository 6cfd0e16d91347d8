/* A ring of 8 numbers, of which a writer and a reader put and take some in turn, with fences where two harts would need
   them. The k-th number put is 2k - 1; the reader adds k times the k-th that it takes, 100 in all. The answer is the sum of
   k (2k - 1), which is n (n + 1) (4n - 1) / 6 = 671,650 for n = 100. In any other order the same numbers give less. */
#define PLACES 8
#define COUNT 100
static volatile unsigned ring[PLACES], put, taken;

static int give(unsigned number)
{
    if (put - taken == PLACES)
        return 0;
    __atomic_thread_fence(__ATOMIC_ACQUIRE);
    ring[put % PLACES] = number;
    __atomic_thread_fence(__ATOMIC_RELEASE);
    put++;
    return 1;
}

static int take(unsigned *number)
{
    if (put == taken)
        return 0;
    __atomic_thread_fence(__ATOMIC_ACQUIRE);
    *number = ring[taken % PLACES];
    __atomic_thread_fence(__ATOMIC_RELEASE);
    taken++;
    return 1;
}

int main(void)
{
    unsigned k = 0, sum = 0, number = 1, found = 0;
    for (int turn = 0; k < COUNT; turn++) {
        /* eight turns in which the ring runs empty, then eight in which it gets full */
        for (int n = turn & 8 ? 6 : 1; n > 0 && give(number); n--)
            number += 2;
        __sync_synchronize();
        for (int n = 3; n > 0 && k < COUNT && take(&found); n--)
            sum += ++k * found;
        __atomic_thread_fence(__ATOMIC_SEQ_CST);
    }
    return (int)sum;
}
