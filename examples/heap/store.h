/* A store of keys and values: a list in order of insertion, hash chains, and a free list. */
#include <stdint.h>

enum { ITEMS = 96, BUCKETS = 16, USED = 1, FREE = 2 };

struct item {
    uint32_t tag;               /* USED or FREE */
    uint32_t key;
    struct item *next;          /* in the list; of a free item, in the free list */
    struct item *prev;
    struct item *chain;         /* the next one of the same bucket */
    uint64_t value;
};

struct store {
    uint64_t self;              /* where the store lies: pointers count from there */
    uint32_t items;
    uint32_t buckets;
    uint32_t count;             /* how many items are used */
    uint32_t pad;
    struct item *first;
    struct item *last;
    struct item *free;
    struct item *bucket[BUCKETS];
    struct item item[ITEMS];
};
