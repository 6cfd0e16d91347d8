/* Powers of a matrix: the answer is the trace of the fourth power of a 6 by 6 matrix of signed bytes, 4,936,066. */
#define SIZE 6
static signed char start[SIZE][SIZE];
static int power[SIZE][SIZE], next[SIZE][SIZE];

static void multiply(void)
{
    for (int i = 0; i < SIZE; i++)
        for (int j = 0; j < SIZE; j++) {
            int sum = 0;
            for (int k = 0; k < SIZE; k++)
                sum += power[i][k] * start[k][j];
            next[i][j] = sum;
        }
    for (int i = 0; i < SIZE; i++)
        for (int j = 0; j < SIZE; j++)
            power[i][j] = next[i][j];
}

int main(void)
{
    int trace = 0;
    for (int i = 0; i < SIZE; i++)
        for (int j = 0; j < SIZE; j++)
            power[i][j] = start[i][j] = (signed char)(i * 3 - j * j + 2);
    for (int n = 1; n < 4; n++)
        multiply();
    for (int i = 0; i < SIZE; i++)
        trace += power[i][i];
    return trace;
}
