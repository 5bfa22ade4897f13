#include "table.h"
#include <stdlib.h>

static size_t size_of(const struct table *table) { return table->slots ? table->size : FEW_SLOTS; }

// The size is a power of two.
static size_t place_of(uint64_t key, size_t size) { return (size_t)((key * 0x9E3779B97F4A7C15u) >> 32) & (size - 1); }

static struct node **slot_of(const struct table *table, uint64_t key) {
    struct node *const *slots = table->slots ? table->slots : table->few;
    return (struct node **)&slots[place_of(key, size_of(table))];
}

static void grow(struct table *table) {
    size_t size = size_of(table), wider = 4 * size;
    struct node **made = calloc(wider, sizeof(struct node *)), **slots = table->slots ? table->slots : table->few;
    if (!made) return;
    for (size_t i = 0; i < size; i++) {
        for (struct node *node = slots[i], *next; node; node = next) {
            struct node **slot = &made[place_of(node->key, wider)];
            next = node->next;
            node->next = *slot;
            *slot = node;
        }
    }
    free(table->slots);
    table->slots = made;
    table->size = wider;
}

void table_add(struct table *table, struct node *node, uint64_t key) {
    if (++table->count > size_of(table)) grow(table);
    struct node **slot = slot_of(table, key);
    node->key = key;
    node->next = *slot;
    *slot = node;
}

struct node *table_find(const struct table *table, uint64_t key) {
    struct node *node = *slot_of(table, key);
    while (node && node->key != key) node = node->next;
    return node;
}

struct node *table_remove(struct table *table, uint64_t key) {
    struct node **at = slot_of(table, key);
    while (*at && (*at)->key != key) at = &(*at)->next;
    struct node *found = *at;
    if (found) {
        *at = found->next;
        table->count--;
    }
    return found;
}

struct node *table_any(const struct table *table) {
    struct node *const *slots = table->slots ? table->slots : table->few;
    for (size_t i = 0; i < size_of(table); i++) {
        if (slots[i]) return slots[i];
    }
    return NULL;
}

void table_each(const struct table *table, void (*visit)(struct node *node)) {
    struct node *const *slots = table->slots ? table->slots : table->few;
    for (size_t i = 0; i < size_of(table); i++) {
        for (struct node *node = slots[i]; node; node = node->next) visit(node);
    }
}

void table_free(struct table *table) {
    free(table->slots);
    *table = (struct table){ .slots = NULL };
}
