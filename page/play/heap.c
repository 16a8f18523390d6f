/* The heap of the module: blocks of powers of two, each size with a list of those that were given back. */
typedef unsigned long size;
typedef struct { long granted; void *block; } grant;
enum { SMALLEST = 4, SIZES = 40 };
struct head { size kind; size unused; };
static struct head_list { struct head_list *next; } *given_back[SIZES];
extern unsigned char __heap_base;
static size end_of_used, end_of_memory;
void *memcpy(void *to, const void *from, size n);

static size kind_of(size n) {
    size kind = SMALLEST;
    while (((size)1 << kind) < n) kind++;
    return kind;
}

static void *fresh(size n) {
    if (end_of_memory == 0) {
        end_of_used = ((size)&__heap_base + 15) & ~(size)15;
        end_of_memory = __builtin_wasm_memory_size(0) << 16;
    }
    if (n > end_of_memory - end_of_used) {
        size pages = (n - (end_of_memory - end_of_used) + 65535) >> 16;
        size more = pages < 256 ? 256 : pages;
        if (__builtin_wasm_memory_grow(0, more) == (size)-1) return 0;
        end_of_memory += more << 16;
    }
    void *block = (void *)end_of_used;
    end_of_used += n;
    return block;
}

void *malloc(size n) {
    if (n > (size)1 << 36) return 0;
    size kind = kind_of(n + sizeof(struct head));
    struct head *block = (struct head *)given_back[kind];
    if (block) given_back[kind] = given_back[kind]->next;
    else block = fresh((size)1 << kind);
    if (!block) return 0;
    block->kind = kind;
    return block + 1;
}

void free(void *block) {
    if (!block) return;
    struct head *head = (struct head *)block - 1;
    size kind = head->kind;
    struct head_list *freed = (struct head_list *)head;
    freed->next = given_back[kind];
    given_back[kind] = freed;
}

grant rattle_alloc(size n, size align) {
    void *block = malloc(n ? n : align);
    return (grant){ block != 0, block ? block : (void *)16 };
}

grant rattle_realloc(void *old, size held, size n, size align) {
    size wanted = n ? n : align;
    struct head *head = (struct head *)old - 1;
    if (wanted + sizeof(struct head) <= (size)1 << head->kind) return (grant){ 1, old };
    void *block = malloc(wanted);
    if (!block) return (grant){ 0, (void *)16 };
    memcpy(block, old, held < n ? held : n);
    free(old);
    return (grant){ 1, block };
}

void rattle_dealloc(void *block) { free(block); }

void *memcpy(void *to, const void *from, size n) {
    for (size i = 0; i < n; i++) ((unsigned char *)to)[i] = ((const unsigned char *)from)[i];
    return to;
}
void *memmove(void *to, const void *from, size n) {
    if (to < from) return memcpy(to, from, n);
    while (n-- > 0) ((unsigned char *)to)[n] = ((const unsigned char *)from)[n];
    return to;
}
void *memset(void *to, int byte, size n) {
    for (size i = 0; i < n; i++) ((unsigned char *)to)[i] = (unsigned char)byte;
    return to;
}
int memcmp(const void *one, const void *other, size n) {
    for (size i = 0; i < n; i++) {
        int d = ((const unsigned char *)one)[i] - ((const unsigned char *)other)[i];
        if (d) return d;
    }
    return 0;
}
