#include <stddef.h>
#include <stdint.h>
#include <stdlib.h>
#include <string.h>

typedef uint32_t hash_t;
typedef struct entry entry_t;
struct entry { hash_t hash; const char *key; void *value; entry_t *next; };
typedef struct { entry_t **slots; size_t size, used; hash_t (*hash)(const char *); } table_t;

static hash_t fnv(const char *key)
{
    hash_t h = 2166136261u;
    while (*key)
        h = (h ^ (unsigned char)*key++) * 16777619U;
    return h;
}

static int grow(table_t *t)
{
    size_t size = t->size ? t->size << 1 : 8;
    entry_t **slots = calloc(size, sizeof(entry_t *)), *e, *next;

    if (!slots) return 0;
    for (size_t k = 0; k < t->size; ++k)
        for (e = t->slots[k]; e; e = next) {
            next = e->next;
            e->next = slots[e->hash & size - 1];
            slots[e->hash & (size - 1)] = e;
        }
    free(t->slots);
    t->slots = slots, t->size = size;
    return 1;
}

entry_t *lookup(table_t *t, const char *key)
{
    if (t->size == 0) return 0;
    hash_t h = (*t->hash)(key);
    for (entry_t *e = t->slots[h % t->size]; e != 0; e = e->next)
        if (e->hash == h && !strcmp(e->key, key)) return e;
    return 0;
}

int insert(table_t *t, const char *key, void *value)
{
    entry_t *e = lookup(t, key);
    if (e) { e->value = value; return 1; }
    if (t->used >= t->size - t->size / 4 && !grow(t)) return 0;
    if (!(e = malloc(sizeof *e))) return 0;
    e->hash = t->hash(key); e->key = key; e->value = value;
    e->next = t->slots[e->hash % t->size];
    t->slots[e->hash % t->size] = e;
    return (int)++t->used > 0;
}

int main(void)
{
    table_t names = { .size = 0, .hash = fnv };
    return insert(&names, "one", &names) && lookup(&names, "one") != 0 ? 0 : 1;
}
