/* Heap sort of 150 signed halfwords; the answer is 1 if they are in order and none is lost. */
#define COUNT 150
static short values[COUNT];

static void sink(int top, int end)
{
    for (int child = 2 * top + 1; child < end; child = 2 * top + 1) {
        if (child + 1 < end && values[child + 1] > values[child])
            child++;
        if (values[top] >= values[child])
            return;
        short value = values[top];
        values[top] = values[child];
        values[child] = value;
        top = child;
    }
}

int main(void)
{
    unsigned seed = 2463534242u;
    int sum = 0, ordered = 1;
    for (int i = 0; i < COUNT; i++) {
        seed ^= seed << 13;
        seed ^= seed >> 17;
        seed ^= seed << 5;
        values[i] = (short)seed;
        sum += values[i];
    }
    for (int top = COUNT / 2 - 1; top >= 0; top--)
        sink(top, COUNT);
    for (int end = COUNT - 1; end > 0; end--) {
        short value = values[0];
        values[0] = values[end];
        values[end] = value;
        sink(0, end);
    }
    for (int i = 0; i < COUNT; i++) {
        sum -= values[i];
        if (i > 0 && values[i - 1] > values[i])
            ordered = 0;
    }
    return ordered && sum == 0;
}
