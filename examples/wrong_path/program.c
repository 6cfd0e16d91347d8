/* Looks an index up in a table, if it is in bounds. It is not, so the answer is -1 and the load must not be made. */
#define COUNT 4
int table[COUNT] = {10, 20, 30, 40};
unsigned index = 9;

int main(void)
{
    return index < COUNT ? table[index] : -1;
}
