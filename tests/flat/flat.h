/* What the modules of the program have in common. Nothing in it depends on the sizes of pointers or of long. */
typedef unsigned int u32;
typedef unsigned char u8;
typedef unsigned long long u64;

struct node {
    const char *name;
    u32 weight;
    const struct node *left, *right;
};

struct verb {
    const char *name;
    u32 (*of)(u32, u32);
    u32 *count;
};

/* start.s, or the host */
extern void put(int byte);

/* text.c */
extern const char digits[];
extern u32 shown;
extern void show(const char *text);
extern void show_number(u32 number, u32 base);
extern void show_line(const char *name, u32 number);
extern const char *kind_of(u32 number);

/* data.c */
extern const struct node tree[];
extern const u8 *const middle;
extern const struct verb verbs[];
extern const u32 verb_count;
extern u32 counts[4];
extern u8 page[600];
extern u32 sum_of(const struct node *node);
extern u32 crc_of(const u8 *bytes, u32 length);

/* made.c, which a seed makes */
extern u32 made(void);
