// Hash tables by number, of nodes that stand in what they lead to. They ask for memory to grow, and do without where there is none.
#ifndef NET_TABLE_H
#define NET_TABLE_H

#include <stddef.h>
#include <stdint.h>

struct node {
    struct node *next;
    uint64_t key;
};

enum { FEW_SLOTS = 32 };

// Zeros are an empty table.
struct table {
    struct node **slots; // NULL for `few`
    size_t size, count;
    struct node *few[FEW_SLOTS];
};

void table_add(struct table *table, struct node *node, uint64_t key);
struct node *table_find(const struct table *table, uint64_t key);

// Takes the node of the key out, and answers it, NULL where there is none.
struct node *table_remove(struct table *table, uint64_t key);

// Any node, NULL where there is none.
struct node *table_any(const struct table *table);

// Calls `visit` with each node; it may not add or remove one.
void table_each(const struct table *table, void (*visit)(struct node *node));

// Gives the memory back; the nodes are their owners'.
void table_free(struct table *table);

#endif
