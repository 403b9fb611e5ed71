/* store run SEED BUG FILE: works on the store, makes one mistake, and stops in `dumped`; the pairs
                            that ought to be stored are written to FILE
   store walk DUMP:         tells what is wrong in a dump, and nothing where all is right
   store list DUMP:         prints key and value of each item in the list
   store mend DUMP:         rebuilds the end of the list, the chains and the free list */
#include "store.h"
#include <stdio.h>
#include <stdlib.h>
#include <string.h>
#include <sys/mman.h>

static struct store *const S = (struct store *)0x10000000;

static void map_store(void)
{
    void *at = mmap(S, sizeof *S, PROT_READ | PROT_WRITE,
                    MAP_PRIVATE | MAP_ANONYMOUS | MAP_FIXED, -1, 0);
    if (at == MAP_FAILED)
        exit(2);
}

static struct item **bucket_of(uint32_t key)
{
    return &S->bucket[key * 2654435761u >> 28];
}

static void start(void)
{
    S->self = (uintptr_t)S;
    S->items = ITEMS;
    S->buckets = BUCKETS;
    for (int at = ITEMS - 1; at >= 0; at--) {
        S->item[at].tag = FREE;
        S->item[at].next = S->free;
        S->free = &S->item[at];
    }
}

static struct item *find(uint32_t key)
{
    struct item *it = *bucket_of(key);
    while (it && it->key != key)
        it = it->chain;
    return it;
}

static void insert(uint32_t key, uint64_t value, int bug)
{
    struct item *it = S->free;
    if (!it)
        return;
    S->free = it->next;
    *it = (struct item){ .tag = USED, .key = key, .value = value, .prev = S->last };
    if (S->last)
        S->last->next = it;
    else
        S->first = it;
    if (bug != 9)
        S->last = it;                                   /* 9: the end stays as it was */
    struct item **bucket = bucket_of(bug == 7 ? key + 1 : key); /* 7: the wrong bucket */
    if (bug != 6) {                                     /* 6: no bucket at all */
        it->chain = *bucket;
        *bucket = it;
    }
    if (bug != 5)                                       /* 5: the count stays */
        S->count++;
}

static void drop(struct item *it, int bug)
{
    if (bug != 2) {                                     /* 2: the one before still leads to it */
        if (it->prev)
            it->prev->next = it->next;
        else
            S->first = it->next;
    }
    if (bug != 1) {                                     /* 1: the one behind still leads to it */
        if (it->next)
            it->next->prev = it->prev;
        else
            S->last = it->prev;
    }
    struct item **at = bucket_of(it->key);
    while (bug != 3 && *at && *at != it)                /* 3: its chain still leads to it */
        at = &(*at)->chain;
    if (bug != 3 && *at)
        *at = it->chain;
    S->count--;
    if (bug == 11)                                      /* 11: it is in no list any more */
        return;
    it->tag = FREE;
    it->next = S->free;
    S->free = it;
    if (bug == 4) {                                     /* 4: freed twice */
        it->next = S->free;
        S->free = it;
    }
}

/* The other mistakes, at some item of the list. */
static void spoil(struct item *it, int bug)
{
    if (bug == 8)                                       /* 8: a value that overflows */
        memset(&it->next, 0x41, sizeof it->next);
    if (bug == 10 && S->first)                          /* 10: something before the first */
        S->first->prev = it;
    if (bug == 12)                                      /* 12: the list ends in a loop */
        S->last->next = it;
}

__attribute__((noinline)) void dumped(struct store *store)
{
    __asm__ volatile("" : : "r"(store) : "memory");
}

static uint32_t state;
static uint32_t chance(uint32_t below)
{
    state = state * 1664525u + 1013904223u;
    return (uint32_t)((uint64_t)state * below >> 32);
}

static struct item *some_item(void)
{
    struct item *it = S->first;
    for (uint32_t steps = chance(S->count); it->next && steps; steps--)
        it = it->next;
    return it;
}

static int run(uint32_t seed, int bug, const char *path)
{
    struct { uint32_t key; uint64_t value; } kept[ITEMS];
    int count = 0;
    map_store();
    start();
    state = seed;
    for (int turn = 0; turn < 400; turn++) {
        int last = turn == 399, drops = last ? bug <= 4 || bug == 11 : chance(2);
        if (count < 8 || (!drops && count < ITEMS - 8)) {
            uint32_t key = chance(1u << 30);
            kept[count].key = key;
            kept[count++].value = (uint64_t)key * key;
            insert(key, (uint64_t)key * key, last ? bug : 0);
        } else {
            int which = chance(count);
            drop(find(kept[which].key), last ? bug : 0);
            kept[which] = kept[--count];
        }
    }
    spoil(some_item(), bug);
    FILE *file = fopen(path, "w");
    for (int at = 0; file && at < count; at++)
        fprintf(file, "%u %llu\n", kept[at].key, (unsigned long long)kept[at].value);
    if (!file || fclose(file))
        return 2;
    dumped(S);
    return 0;
}

static int is_item(const struct item *it)
{
    uintptr_t at = (uintptr_t)it - (uintptr_t)S->item;
    return (uintptr_t)it >= (uintptr_t)S->item && at % sizeof *it == 0 && at / sizeof *it < ITEMS;
}

static int wrong(const char *what)
{
    puts(what);
    return 1;
}

static int walk(void)
{
    char listed[ITEMS] = { 0 }, chained[ITEMS] = { 0 }, freed[ITEMS] = { 0 };
    uint32_t count = 0;
    const struct item *before = NULL;
    for (struct item *it = S->first; it; before = it, it = it->next) {
        if (!is_item(it) || listed[it - S->item]++)
            return wrong("list");
        if (it->prev != before || it->tag != USED)
            return wrong(it->prev != before ? "prev" : "tag");
        count++;
    }
    if (S->last != before)
        return wrong("last");
    if (S->count != count)
        return wrong("count");
    for (int at = 0; at < BUCKETS; at++)
        for (struct item *it = S->bucket[at]; it; it = it->chain)
            if (!is_item(it) || !listed[it - S->item] || chained[it - S->item]++
                || bucket_of(it->key) != &S->bucket[at])
                return wrong("chain");
    for (struct item *it = S->free; it; it = it->next)
        if (!is_item(it) || it->tag != FREE || listed[it - S->item] || freed[it - S->item]++)
            return wrong("free list");
    for (int at = 0; at < ITEMS; at++)
        if (listed[at] + freed[at] != 1 || listed[at] != chained[at])
            return wrong(listed[at] ? "item in no chain" : "item in no list");
    return 0;
}

static void list(void)
{
    int steps = 0;
    for (struct item *it = S->first; is_item(it) && steps < ITEMS; it = it->next, steps++)
        printf("%u %llu\n", it->key, (unsigned long long)it->value);
}

static void mend(void)
{
    char listed[ITEMS] = { 0 };
    memset(S->bucket, 0, sizeof S->bucket);
    S->last = S->free = NULL;
    for (struct item *it = S->first; it; it = it->next) {
        listed[it - S->item] = 1;
        S->last = it;
        it->chain = *bucket_of(it->key);
        *bucket_of(it->key) = it;
    }
    for (int at = ITEMS - 1; at >= 0; at--)
        if (!listed[at]) {
            S->item[at].next = S->free;
            S->free = &S->item[at];
        }
}

static int transfer(const char *path, const char *mode)
{
    FILE *file = fopen(path, mode);
    size_t done = !file ? 0 : *mode == 'r' ? fread(S, sizeof *S, 1, file) : fwrite(S, sizeof *S, 1, file);
    return file && done == 1 && fclose(file) == 0 ? 0 : 2;
}

int main(int words, char **word)
{
    if (words == 5 && !strcmp(word[1], "run"))
        return run(atoi(word[2]), atoi(word[3]), word[4]);
    if (words != 3)
        return 2;
    map_store();
    if (transfer(word[2], "rb"))
        return 2;
    if (!strcmp(word[1], "walk"))
        return walk();
    if (!strcmp(word[1], "list"))
        list();
    if (!strcmp(word[1], "mend")) {
        mend();
        return transfer(word[2], "wb");
    }
    return 0;
}
