/* In the manner of CoreMark: a list that is sorted and searched, matrices of 16-bit numbers, and bits that are counted,
   each under a CRC-16. Leaves the CRC of the list, of the matrices and of the counts, and that of "123456789". */
#include "kernel.h"

#define NODES 32
#define SIZE 6

struct node {
    struct node *next;
    u16 key, value;
};

static struct node nodes[NODES];
static u16 left[SIZE][SIZE], right[SIZE][SIZE];

/* CRC-16/ARC: the polynomial 0x8005, the lowest bit first, from 0. */
APART static u16 crc_byte(u16 crc, u8 byte)
{
    int bit;
    crc ^= byte;
    for (bit = 0; bit < 8; bit++)
        crc = crc & 1 ? crc >> 1 ^ 0xA001 : crc >> 1;
    return crc;
}

APART static u16 crc_half(u16 crc, u16 value)
{
    return crc_byte(crc_byte(crc, value & 255), value >> 8);
}

/* Merges two lists in the order of their keys; of equal keys that of the first list stands first. */
APART static struct node *merged(struct node *a, struct node *b)
{
    struct node *head = 0, **at = &head;
    while (a && b) {
        struct node **least = a->key <= b->key ? &a : &b;
        *at = *least;
        at = &(*at)->next;
        *least = (*least)->next;
    }
    *at = a ? a : b;
    return head;
}

APART static struct node *sorted(struct node *head)
{
    struct node *slow = head, *fast;
    if (!head || !head->next)
        return head;
    for (fast = head->next; fast && fast->next; fast = fast->next->next)
        slow = slow->next;
    fast = slow->next;
    slow->next = 0;
    return merged(sorted(head), sorted(fast));
}

APART static u16 list(u64 state)
{
    struct node *at;
    u16 crc = 0, steps, key;
    int i;
    for (i = 0; i < NODES; i++) {
        nodes[i].key = next_number(&state);
        nodes[i].value = i;
        nodes[i].next = i + 1 < NODES ? &nodes[i + 1] : 0;
    }
    at = sorted(nodes);
    for (struct node *node = at; node; node = node->next)
        crc = crc_half(crc_half(crc, node->key), node->value);
    for (i = 0; i < 8; i++) {
        struct node *node = at;
        key = next_number(&state);
        for (steps = 0; node && node->key < key; node = node->next)
            steps++;
        crc = crc_half(crc, steps);
    }
    return crc;
}

APART static u16 matrices(u64 state)
{
    u16 crc = 0;
    int i, j, k;
    for (i = 0; i < SIZE; i++)
        for (j = 0; j < SIZE; j++) {
            left[i][j] = next_number(&state);
            right[i][j] = next_number(&state);
        }
    for (i = 0; i < SIZE; i++)
        for (j = 0; j < SIZE; j++) {
            u32 sum = 0;
            for (k = 0; k < SIZE; k++) {
                u32 product = (u32)(short)left[i][k] * (u32)(short)right[k][j];
                sum += product;
                sum ^= (product >> 2 & 15) * (product >> 5 & 127);
            }
            crc = crc_half(crc_half(crc, sum & 0xffff), sum >> 16);
        }
    return crc;
}

APART static u16 counts(u64 state)
{
    u16 crc = 0;
    int i, j;
    for (i = 0; i < 24; i++) {
        u64 word = (u64)next_number(&state) << 31 | next_number(&state);
        u16 ones = 0, changes = 0;
        for (j = 0; j < 62; j++) {
            ones += word >> j & 1;
            changes += (word >> j ^ word >> (j + 1)) & 1;
        }
        crc = crc_half(crc, ones << 8 | changes);
    }
    return crc;
}

int main(void)
{
    static const u8 check[] = "123456789";
    u16 crc = one - 1;
    int i;
    result[0] = list(one);
    result[1] = matrices(one + 1);
    result[2] = counts(one + 2);
    for (i = 0; i < 9; i++)
        crc = crc_byte(crc, check[i]);
    result[3] = crc;
    return 0;
}
