/* What a program asks of its host, for a page: arguments, standard input and standard output in memory, and a heap. A program runs once in
 * an instance of its own, so nothing is left over from an earlier run. */
typedef __SIZE_TYPE__ size_t;
typedef unsigned char u8;
typedef long long i64;

/* The heap: blocks of powers of two, each size with a list of its free blocks. The last block grows in place. */
enum { HEAD = 16, LEAST = 5, SIZES = 41 };
static const size_t MOST = (size_t)3 << 30;
extern u8 __heap_base;
struct block { size_t size; struct block *next; };
static struct block *unused[SIZES];
static struct block *last;
static size_t top;

static int size_of(size_t room) {
    int size = LEAST;
    while (((size_t)1 << size) < room) size++;
    return size;
}

/* Whether memory reaches to `end` now. */
static int reaches(size_t end) {
    size_t have = __builtin_wasm_memory_size(0) * 65536ul;
    if (end <= have) return 1;
    if (end > MOST) return 0;
    size_t pages = (end - have + 65535) / 65536, more = have / 4 / 65536;
    if (have + (pages + more) * 65536 <= MOST && __builtin_wasm_memory_grow(0, pages + more) != (size_t)-1) return 1;
    return __builtin_wasm_memory_grow(0, pages) != (size_t)-1;
}

static void *take(size_t bytes) {
    if (bytes > MOST) return 0;
    int size = size_of(bytes + HEAD);
    struct block *block = unused[size];
    if (block) {
        unused[size] = block->next;
        return (u8 *)block + HEAD;
    }
    if (!top) top = ((size_t)&__heap_base + 15) & ~(size_t)15;
    if (!reaches(top + ((size_t)1 << size))) return 0;
    block = (struct block *)top;
    block->size = size;
    top += (size_t)1 << size;
    last = block;
    return (u8 *)block + HEAD;
}

static void give(void *bytes) {
    if (!bytes) return;
    struct block *block = (struct block *)((u8 *)bytes - HEAD);
    block->next = unused[block->size];
    unused[block->size] = block;
}

static void *retake(void *bytes, size_t count) {
    if (!bytes) return take(count);
    if (count > MOST) return 0;
    struct block *block = (struct block *)((u8 *)bytes - HEAD);
    size_t had = ((size_t)1 << block->size) - HEAD;
    if (count <= had) return bytes;
    if (block == last) {
        int size = size_of(count + HEAD);
        if (!reaches((size_t)block + ((size_t)1 << size))) return 0;
        block->size = size;
        top = (size_t)block + ((size_t)1 << size);
        return bytes;
    }
    void *to = take(count);
    if (!to) return 0;
    __builtin_memcpy(to, bytes, had);
    give(bytes);
    return to;
}

/* The kit's allocator. */
static u8 nothing;
struct taken { size_t ok; void *at; };
static struct taken answer(void *bytes) { return (struct taken){bytes != 0, bytes ? bytes : &nothing}; }
struct taken rattle_alloc(size_t bytes, size_t align) { return answer(take(bytes ? bytes : align)); }
struct taken rattle_realloc(void *bytes, size_t old, size_t count, size_t align) { return answer(retake(bytes, count ? count : align)); }
void rattle_dealloc(void *bytes) { give(bytes); }

/* The arguments, each ended by a zero byte. The program's own name is the first. */
enum { WORDS = 16 };
static const u8 *words[WORDS];
static size_t word_count;
void page_argument(const u8 *word) { if (word_count < WORDS) words[word_count++] = word; }
i64 rattle_arg(size_t i, u8 *room, size_t size) {
    if (i >= word_count) return -1;
    size_t n = 0;
    for (; words[i][n]; n++) {
        if (n == size) return -2;
        room[n] = words[i][n];
    }
    return (i64)n;
}
i64 rattle_env(const u8 *name, u8 *room, size_t size) { return -1; }
i64 rattle_env_at(size_t i, u8 *room, size_t size) { return -1; }

/* Standard input, standard output with the lines of the standard error among it, and no other files. */
enum { EBADF = 9, ENOENT = 2, ENOTTY = 25, ENOSPC = 28, ESPIPE = 29 };
static int error;
int rattle_errno(void) { return error; }
void rattle_set_errno(int number) { error = number; }

static const u8 *input;
static size_t input_left;
void page_input(const u8 *bytes, size_t count) { input = bytes; input_left = count; }
i64 read(int file, u8 *room, size_t size) {
    if (file != 0) { error = EBADF; return -1; }
    size_t count = size < input_left ? size : input_left;
    __builtin_memcpy(room, input, count);
    input += count;
    input_left -= count;
    return (i64)count;
}

static u8 *output;
static size_t output_size, output_room, output_most = (size_t)1 << 30;
u8 *page_output(void) { return output; }
size_t page_output_size(void) { return output_size; }
void page_output_most(size_t most) { output_most = most; }
i64 write(int file, const u8 *bytes, size_t count) {
    if (file != 1 && file != 2) { error = EBADF; return -1; }
    if (count > output_most - output_size) { error = ENOSPC; return -1; }
    if (output_size + count > output_room) {
        size_t room = (output_size + count) * 2;
        u8 *more = retake(output, room);
        if (!more) { error = ENOSPC; return -1; }
        output = more;
        output_room = room;
    }
    __builtin_memcpy(output + output_size, bytes, count);
    output_size += count;
    return (i64)count;
}
i64 __write(int file, const u8 *bytes, size_t count) { return write(file, bytes, count); }
int isatty(int file) { error = ENOTTY; return 0; }
/* No time passes: a run shows no progress. */
int clock_gettime(int clock, i64 *time) { time[0] = time[1] = 0; return 0; }
i64 lseek(int file, i64 offset, int whence) { error = ESPIPE; return -1; }
int open(const char *name, int flags, ...) { error = ENOENT; return -1; }
int close(int file) { error = EBADF; return -1; }
int link(const char *name, const char *other) { error = ENOENT; return -1; }
int rename(const char *name, const char *other) { error = ENOENT; return -1; }
int unlink(const char *name) { error = ENOENT; return -1; }
i64 readlink(const char *name, char *room, size_t size) { error = ENOENT; return -1; }
int statx(int folder, const char *name, int flags, unsigned mask, void *state) { error = ENOENT; return -1; }
int __xpg_strerror_r(int number, char *room, size_t size) {
    if (size) *room = 0;
    return 0;
}
/* A program for x86-64 looks for the features of its processor first, here for those of a machine that has all. */
static const unsigned features[8] = {~0u, ~0u, ~0u, ~0u, ~0u, ~0u, ~0u, ~0u};
const void *__x86_get_cpuid_feature_leaf(unsigned leaf) { return features; }
i64 __sysv_signal(int number, i64 handler) { return 0; }

/* Room for what the page passes. */
void *page_take(size_t bytes) { return take(bytes); }

/* What the compiler calls for products and shifts of 128 bits. */
typedef unsigned long long u64;
typedef __int128 i128;
typedef unsigned __int128 u128;
i128 __multi3(i128 a, i128 b) {
    u64 al = (u64)a, ah = (u64)((u128)a >> 64), bl = (u64)b, bh = (u64)((u128)b >> 64);
    u64 a0 = (unsigned)al, a1 = al >> 32, b0 = (unsigned)bl, b1 = bl >> 32;
    u64 p = a0 * b0, q = a1 * b0 + (p >> 32), r = a0 * b1 + (unsigned)q;
    u64 low = (r << 32) | (unsigned)p, high = a1 * b1 + (q >> 32) + (r >> 32);
    high += ah * bl + al * bh;
    return (i128)(((u128)high << 64) | low);
}
i128 __ashlti3(i128 a, int by) {
    u64 low = (u64)a, high = (u64)((u128)a >> 64);
    if (by == 0) return a;
    if (by >= 64) return (i128)((u128)(low << (by - 64)) << 64);
    return (i128)(((u128)(high << by | low >> (64 - by)) << 64) | low << by);
}
i128 __lshrti3(i128 a, int by) {
    u64 low = (u64)a, high = (u64)((u128)a >> 64);
    if (by == 0) return a;
    if (by >= 64) return (i128)(u128)(high >> (by - 64));
    return (i128)(((u128)(high >> by) << 64) | (low >> by | high << (64 - by)));
}
