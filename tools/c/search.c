/* Where a word occurs in a text, and a binary search for each square: the answer is 100 times the occurrences plus the
   squares below 900 found among the multiples of 3, 1,410. */
static const char text[] = "then the others gather there, the weather is theirs, and neither the father nor the mother bathe";
static const char word[] = "the";
static unsigned char places[24];
static unsigned short sorted[300];

static int occurrences(void)
{
    int found = 0;
    for (int i = 0; text[i]; i++) {
        int k = 0;
        while (word[k] && text[i + k] == word[k])
            k++;
        if (!word[k])
            places[found++] = (unsigned char)i;
    }
    return found;
}

static int holds(unsigned value)
{
    int low = 0, high = 300;
    while (low < high) {
        int middle = (low + high) >> 1;
        if (sorted[middle] < value)
            low = middle + 1;
        else
            high = middle;
    }
    return low < 300 && sorted[low] == value;
}

int main(void)
{
    int found = 0;
    unsigned square = 0;
    for (unsigned i = 0; i < 300; i++)
        sorted[i] = (unsigned short)(3 * i);
    for (unsigned i = 0; i < 30; i++) {
        found += holds(square);
        square += 2 * i + 1;
    }
    return 100 * occurrences() + found;
}
