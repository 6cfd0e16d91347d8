/* Peterson's lock, with fences where two harts would need them. Two parties go on step by step in an order that looks like
   chance; 40 times each gets the lock, reads the count, writes it with its own amount added, and gives the lock back. The
   answer is 40 * 1 + 40 * 1,000 = 40,040. Were both inside at once, an amount would get lost: without the wait it is
   36,030. */
#define ROUNDS 40
static volatile int wants[2], last, count;
static int place[2], seen[2], rounds[2];

static void step(int me)
{
    int other = 1 - me;
    if (rounds[me] == ROUNDS)
        return;
    switch (place[me]++) {
    case 0:
        wants[me] = 1;
        __atomic_thread_fence(__ATOMIC_RELEASE);
        break;
    case 1:
        last = me;
        __atomic_thread_fence(__ATOMIC_SEQ_CST);
        break;
    case 2:
        if (wants[other] && last == me)
            place[me] = 2;
        __atomic_thread_fence(__ATOMIC_ACQUIRE);
        break;
    case 3:
        seen[me] = count;
        break;
    case 4:
        count = seen[me] + (me ? 1000 : 1);
        __sync_synchronize();
        break;
    default:
        wants[me] = 0;
        place[me] = 0;
        rounds[me]++;
    }
}

int main(void)
{
    unsigned order = 2463534242u;
    while (rounds[0] < ROUNDS || rounds[1] < ROUNDS) {
        order ^= order << 13;
        order ^= order >> 17;
        order ^= order << 5;
        step((int)(order >> 31));
    }
    return count;
}
