/* A list of 64 nodes: pushed, reversed, the even ones taken out, then sorted by inserting. Leaves its length, the sum of
   its values, the first and the last value. */
#include "kernel.h"

#define COUNT 64

struct node {
    struct node *next;
    u64 value;
};

static struct node nodes[COUNT];

APART static struct node *pushed(u64 state)
{
    struct node *head = 0;
    int i;
    for (i = 0; i < COUNT; i++) {
        nodes[i].value = next_number(&state) % 1000;
        nodes[i].next = head;
        head = &nodes[i];
    }
    return head;
}

APART static struct node *reversed(struct node *head)
{
    struct node *back = 0;
    while (head) {
        struct node *next = head->next;
        head->next = back;
        back = head;
        head = next;
    }
    return back;
}

APART static struct node *odd_ones(struct node *head)
{
    struct node **at = &head;
    while (*at)
        if ((*at)->value & 1)
            at = &(*at)->next;
        else
            *at = (*at)->next;
    return head;
}

APART static struct node *sorted(struct node *head)
{
    struct node *first = 0;
    while (head) {
        struct node *node = head, **at = &first;
        head = head->next;
        while (*at && (*at)->value < node->value)
            at = &(*at)->next;
        node->next = *at;
        *at = node;
    }
    return first;
}

int main(void)
{
    struct node *at = sorted(odd_ones(reversed(pushed(one))));
    result[2] = at->value;
    for (; at; at = at->next) {
        result[0]++;
        result[1] += at->value;
        result[3] = at->value;
    }
    return 0;
}
