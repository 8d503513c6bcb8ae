/* Quicksort of 200 numbers, with the stack of the machine. Leaves the neighbours in the wrong order, the least number,
   the greatest, and the sum of each number times its place. */
#include "kernel.h"

#define COUNT 200

static u32 numbers[COUNT];

APART static void sort(i64 low, i64 high)
{
    while (low < high) {
        u32 pivot = numbers[(low + high) / 2];
        i64 i = low, j = high;
        while (i <= j) {
            while (numbers[i] < pivot)
                i++;
            while (numbers[j] > pivot)
                j--;
            if (i <= j) {
                u32 held = numbers[i];
                numbers[i++] = numbers[j];
                numbers[j--] = held;
            }
        }
        if (j - low < high - i) {
            sort(low, j);
            low = i;
        } else {
            sort(i, high);
            high = j;
        }
    }
}

int main(void)
{
    u64 state = one;
    i64 i;
    for (i = 0; i < COUNT; i++)
        numbers[i] = next_number(&state);
    sort(0, COUNT - 1);
    for (i = 1; i < COUNT; i++)
        if (numbers[i - 1] > numbers[i])
            result[0]++;
    result[1] = numbers[0];
    result[2] = numbers[COUNT - 1];
    for (i = 0; i < COUNT; i++)
        result[3] += (u64)numbers[i] * i;
    return 0;
}
