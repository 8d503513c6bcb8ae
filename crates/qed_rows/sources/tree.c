// A binary tree of nodes from a pool, small structures by value, moves through a ladder of tail calls, and memory calls of the compiler's own.
#include "test.h"

#define COUNT 24

struct node { i32 key; struct node *left, *right; };
struct pair { i64 first, second; };
struct block { u64 words[20]; };

u64 result[4];
static struct node pool[COUNT];
static i32 used;
static struct block blocks[3] = {{{1, 2, 3, 4, 5, 6}}};
static u64 (*walk)(const struct node *, u64);

static struct node *insert(struct node *tree, i32 key) {
    if (!tree) {
        struct node *made = &pool[used++];
        made->key = key;
        return made;
    }
    if (key < tree->key)
        tree->left = insert(tree->left, key);
    else if (key > tree->key)
        tree->right = insert(tree->right, key);
    return tree;
}

static u64 in_order(const struct node *tree, u64 sum) {
    return tree ? in_order(tree->right, mixed(in_order(tree->left, sum), (u64)tree->key)) : sum;
}

static u64 depth(const struct node *tree, u64 above) {
    if (!tree)
        return above;
    u64 left = depth(tree->left, above + 1), right = depth(tree->right, above + 1);
    return left > right ? left : right;
}

static struct pair both(struct pair a, struct pair b) {
    return (struct pair){a.first * b.first - a.second * b.second, a.first * b.second + a.second * b.first};
}

static u64 is_odd(u64 n);
static u64 is_even(u64 n) { return n == 0 ? 1 : is_odd(n - 1); }
static u64 is_odd(u64 n) { return n == 0 ? 0 : is_even(n - 1); }

int main(void) {
    struct node *tree = 0;
    u32 seed = 3;
    for (i32 i = 0; i < COUNT; i++)
        tree = insert(tree, (i32)(drawn(&seed) % 1000));
    walk = in_order;
    result[0] = walk(tree, 0);
    walk = depth;
    result[1] = walk(tree, 0) + 100 * (u64)used;
    struct pair power = {1, 0};
    for (i32 i = 0; i < 9; i++)
        power = both(power, (struct pair){3, -2});
    result[2] = mixed((u64)power.first, (u64)power.second);
    blocks[1] = blocks[0];
    blocks[1].words[2] += is_even(12);
    blocks[2] = blocks[1];
    result[3] = blocks[2].words[2] * 10 + blocks[2].words[5] + is_odd(5) * 100;
    return 0;
}
