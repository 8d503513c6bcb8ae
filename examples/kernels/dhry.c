/* In the manner of Dhrystone: records that point at each other, an enumeration, strings of 30 letters, arrays of one and
   of two dimensions, short procedures in several depths. Leaves four sums over what the rounds left. */
#include "kernel.h"

#define ROUNDS 20

enum name { FIRST, SECOND, THIRD, FOURTH, FIFTH };

struct record {
    struct record *next;
    enum name name;
    i64 number;
    char text[32];
};

static struct record here, there;
static i64 global, line[50], square[16][16];
static int flag;
static char letter;

APART static void assign(char *to, const char *from)
{
    while ((*to++ = *from++))
        ;
}

APART static int is_greater(const char *left, const char *right)
{
    while (*left && *left == *right)
        left++, right++;
    return (u8)*left > (u8)*right;
}

APART static enum name chosen(enum name name)
{
    switch (name) {
    case FIRST:
        return FIRST;
    case SECOND:
        return global > 100 ? FIRST : FOURTH;
    case THIRD:
        return SECOND;
    case FOURTH:
        return FOURTH;
    default:
        return THIRD;
    }
}

APART static i64 added(i64 left, i64 right)
{
    return left + 2 + right;
}

APART static void arrays(i64 row, i64 number)
{
    i64 at = row + 5, i;
    line[at] = number;
    line[at + 1] = line[at];
    line[at + 30 - row] = at;
    for (i = at; i <= at + 1; i++)
        square[at % 16][i % 16] = at;
    square[at % 16][(at - 1) % 16]++;
    square[(at + 4) % 16][at % 16] = line[at];
    global = 5 + row;
}

APART static void records(struct record *from)
{
    struct record *to = from->next;
    *to = *from;
    from->number = 5;
    to->number = from->number;
    to->next = from->next;
    if (to->name == FIRST) {
        to->number = 6;
        to->name = chosen(from->name);
        to->number = added(to->number, 10);
    } else {
        *from = *to;
    }
}

int main(void)
{
    char first[32], second[32];
    i64 round, sum = 0, words = 0, i, j;
    here.next = &there;
    there.next = &there;
    assign(here.text, "a program of twenty rounds, one");
    assign(first, "a program of twenty rounds, 1st");
    for (round = 1; round <= ROUNDS; round++) {
        i64 low = 2 * one, high = 3 + round % 4;
        here.name = round % 3 == 0 ? SECOND : FIRST;
        assign(second, round & 1 ? "a program of twenty rounds, 2nd" : "a program of ninety rounds, two");
        flag = !is_greater(first, second);
        letter = flag ? 'A' : 'B';
        while (low < high) {
            sum += 5 * low - high;
            low = low + 1;
        }
        arrays(low % 10, sum);
        records(&here);
        sum += there.number * round + there.name + letter;
        words += is_greater(there.text, second) + chosen(round % 5);
        sum = (sum * 31 - sum / 7) % 1000003;
    }
    for (i = 0; i < 50; i++)
        result[1] += line[i] * (i + 1);
    for (i = 0; i < 16; i++)
        for (j = 0; j < 16; j++)
            result[2] += square[i][j] * (16 * i + j);
    result[0] = sum;
    result[3] = words * 1000 + global;
    return 0;
}
