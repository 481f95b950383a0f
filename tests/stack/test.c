/* Each entry keeps to the stack that vasigmon.h states for it.
 *
 *     test             makes each call on a thread whose stack has just the stated size, and
 *                      sees that it is answered; then with too little stack, and sees that
 *                      it is killed
 *     test --least     prints the least stack on which each call is answered
 *     test --entries   prints the entries that are called
 *
 * Below the stack is a guard page, which may not be touched. A frame that steps over it
 * changes the memory below, which is looked at after each call. What the C library keeps on
 * the stack of a thread (4,400 bytes with glibc 2.36) is taken from the stated size; --least
 * counts without it. Each call is made in a process of its own, since too little stack ends
 * the process.
 *
 * The test was seen to fail: on an archive with all indexes of validation in one frame (a
 * thread of the stated size is killed), and on one compiled without LLVM's `probe-stack`
 * (memory below the guard page is changed). */
#define _GNU_SOURCE
#include "vasigmon.h"

#include <pthread.h>
#include <signal.h>
#include <stdio.h>
#include <stdlib.h>
#include <string.h>
#include <sys/mman.h>
#include <sys/resource.h>
#include <sys/wait.h>
#include <unistd.h>

#define PAGE ((size_t)4096)
/* More bytes than the largest frame has, and than any list. */
#define LARGE ((size_t)1 << 21)
/* Bytes of each output buffer: more than any answer has. */
#define ROOM ((size_t)1 << 26)
/* The answer of a validation that finds conflicts; other answers are refusals. */
#define CONFLICTS 100

static void expect(int holds, const char *what)
{
    if (!holds) {
        printf("stack: %s\n", what);
        exit(1);
    }
}

/* Memory that is this process's own, or that it shares with those it makes. */
static uint8_t *memory(size_t length, int sharing)
{
    void *start = mmap(NULL, length, PROT_READ | PROT_WRITE, sharing | MAP_ANONYMOUS | MAP_NORESERVE, -1, 0);
    expect(start != MAP_FAILED, "there is no memory");
    return (uint8_t *)start;
}

/* ---- what is lent */

typedef struct {
    uint8_t *bytes;
    size_t length;
} list;

static list empty(void)
{
    list l = {memory(LARGE, MAP_PRIVATE), 0};
    return l;
}

static void add_number(list *l, size_t n)
{
    for (; n >= 128; n /= 128)
        l->bytes[l->length++] = (uint8_t)(128 + n % 128);
    l->bytes[l->length++] = (uint8_t)n;
}

static void add_bytes(list *l, const void *bytes, size_t length)
{
    memcpy(l->bytes + l->length, bytes, length);
    l->length += length;
}

/* Adds a text of `length` bytes. In its form, # is a number in four digits, and ~ as many letters as are missing. */
static void add_text(list *l, const char *form, unsigned number, size_t length)
{
    size_t letters = length - (strlen(form) - 1) - (strchr(form, '#') != NULL ? 3 : 0);
    char digits[16];
    snprintf(digits, sizeof digits, "%04u", number);
    for (; *form != 0; form++) {
        if (*form == '#') {
            add_bytes(l, digits, 4);
        } else if (*form == '~') {
            memset(l->bytes + l->length, 'a', letters);
            l->length += letters;
        } else {
            add_bytes(l, form, 1);
        }
    }
}

static list text(const char *form, size_t length)
{
    list l = empty();
    add_text(&l, form, 0, length);
    return l;
}

/* A list of `count` texts in `bytes` bytes, from the forms in turn. */
static list texts(const char *const *forms, size_t count, size_t bytes)
{
    list l = empty();
    size_t kinds = 0, i;
    while (forms[kinds] != NULL)
        kinds += 1;
    for (i = 0; i < count; i++) {
        size_t share = (bytes - l.length) / (count - i);
        size_t length = share < 129 ? share - 1 : share - 2;
        add_number(&l, length);
        add_text(&l, forms[i % kinds], (unsigned)i, length);
    }
    expect(l.length == bytes, "a list is too short");
    return l;
}

/* A list with one byte more. */
static list and_byte(list l, uint8_t byte)
{
    list more = empty();
    add_bytes(&more, l.bytes, l.length);
    add_bytes(&more, &byte, 1);
    return more;
}

/* What rows have: empty texts; each its own destination; the same with a source of 1,000 bytes; each its own source, all
 * for one destination; each its own source, two for a destination. The texts come in falling order. */
enum rows { EMPTY, DESTINATIONS, LONG, SOURCES, PAIRS };

/* The row of no item and of spec 0. */
static void add_row(list *l, const uint8_t *source, size_t source_len, const uint8_t *destination, size_t len)
{
    add_bytes(l, "\0\0\0", 3);
    add_number(l, source_len);
    add_bytes(l, source, source_len);
    add_number(l, len + 1);
    add_bytes(l, destination, len);
}

/* A list of `count` rows, or of as many as 1,048,576 bytes hold. */
static list rows(enum rows kind, size_t count)
{
    static const uint8_t bytes[1000];
    list l = empty();
    size_t i;
    for (i = 0; i < count; i++) {
        size_t n = LARGE - i, whole = l.length;
        uint8_t name[] = {'r', 'e', 'f', 's', '/', (uint8_t)(n >> 16), (uint8_t)(n >> 8), (uint8_t)n};
        uint8_t half[] = {(uint8_t)(n >> 17), (uint8_t)(n >> 9), (uint8_t)(n >> 1)};
        switch (kind) {
        case EMPTY: add_row(&l, name, 0, name, 0); break;
        case DESTINATIONS: add_row(&l, name, 0, name, 8); break;
        case LONG: add_row(&l, bytes, 1000, name, 8); break;
        case SOURCES: add_row(&l, name + 5, 3, name, 5); break;
        case PAIRS: add_row(&l, name + 5, 3, half, 3); break;
        }
        if (l.length > 1048576) {
            l.length = whole;
            break;
        }
    }
    return l;
}

/* ---- calls */

typedef struct call {
    const char *entry;
    uint64_t (*make)(const struct call *);
    const char *what;
    uint64_t op;
    list first, second;                  /* a spec; two specs; or specs, then items or rows */
    uint64_t item;                       /* the item number of the source view */
    size_t room;                         /* bytes of each output buffer */
    uint64_t answer;                     /* a refusal, 0 for none, or CONFLICTS */
    size_t stack;                        /* bytes that are stated */
    size_t little;                       /* bytes that are too few */
} call;

static call calls[256];
static size_t count = 0;
static uint8_t *out, *fixes;

#define LENT(list) (list).bytes, (list).length

static uint64_t parse(const call *c)
{
    return vasigmon_parse(c->op, LENT(c->first)).refusal;
}

static uint64_t instruction(const call *c)
{
    return vasigmon_instruction(c->op, LENT(c->first)).refusal;
}

static uint64_t prefix(const call *c)
{
    return vasigmon_prefix(c->op, LENT(c->first)).refusal;
}

static uint64_t to_bstring(const call *c)
{
    return vasigmon_to_bstring(c->op, LENT(c->first), out, c->room).refusal;
}

static uint64_t expand_prefixes(const call *c)
{
    return vasigmon_expand_prefixes(c->op, LENT(c->first), out, c->room).refusal;
}

static uint64_t collide(const call *c)
{
    return vasigmon_collide(LENT(c->first), LENT(c->second), out, c->room).refusal;
}

static uint64_t group_prefixes(const call *c)
{
    return vasigmon_group_prefixes(c->op, LENT(c->first), out, c->room).refusal;
}

static uint64_t match_lhs(const call *c)
{
    return vasigmon_match_lhs(c->op, LENT(c->first), LENT(c->second), out, c->room).refusal;
}

static uint64_t match_rhs(const call *c)
{
    return vasigmon_match_rhs(c->op, LENT(c->first), LENT(c->second), out, c->room).refusal;
}

static uint64_t validated(const call *c)
{
    vasigmon_validation v = vasigmon_validated(c->op, LENT(c->first), LENT(c->second), out, c->room, fixes, c->room);
    return v.conflicts == 1 ? CONFLICTS : v.refusal;
}

static uint64_t source(const call *c)
{
    return vasigmon_source(c->op, LENT(c->first), LENT(c->second), c->item, 0).refusal;
}

#define ENTRY(name) "vasigmon_" #name, name

/* Adds a call, and where it writes the same call with buffers that are too short. */
static void add(call c)
{
    expect(count + 2 <= sizeof calls / sizeof calls[0], "there are too many calls");
    calls[count++] = c;
    if (c.room > 0 && (c.answer == 0 || c.answer == CONFLICTS)) {
        c.room = 0;
        c.answer = 17;
        calls[count++] = c;
    }
}

/* The five entries on one spec. */
static void add_spec(const char *what, uint64_t op, list spec, uint64_t refusal)
{
    size_t stack = VASIGMON_STACK_SPEC, little = 256;
    add((call){ENTRY(parse), what, op, spec, spec, 0, 0, refusal, stack, little});
    add((call){ENTRY(instruction), what, op, spec, spec, 0, 0, refusal, stack, little});
    add((call){ENTRY(prefix), what, op, spec, spec, 0, 0, refusal, stack, little});
    add((call){ENTRY(to_bstring), what, op, spec, spec, 0, ROOM, refusal, stack, little});
    add((call){ENTRY(expand_prefixes), what, op, spec, spec, 0, ROOM, refusal, stack, little});
}

/* Two specs; where they collide there is room for a destination. */
static void add_pair(const char *what, list first, list second, size_t room, uint64_t refusal)
{
    add((call){ENTRY(collide), what, 0, first, second, 0, room, refusal, VASIGMON_STACK_SPEC, 256});
}

static void add_prefixes(const char *what, list specs, uint64_t refusal, size_t little)
{
    add((call){ENTRY(group_prefixes), what, 0, specs, specs, 0, ROOM, refusal, VASIGMON_STACK_LISTS, little});
}

/* Both listings. */
static void add_listings(const char *what, list specs, list items, uint64_t refusal, size_t little)
{
    add((call){ENTRY(match_lhs), what, 0, specs, items, 0, ROOM, refusal, VASIGMON_STACK_LISTS, little});
    add((call){ENTRY(match_rhs), what, 0, specs, items, 0, ROOM, refusal, VASIGMON_STACK_LISTS, little});
}

static void add_source(const char *what, list specs, list items, uint64_t item, uint64_t refusal)
{
    add((call){ENTRY(source), what, 0, specs, items, item, 0, refusal, VASIGMON_STACK_SPEC, 256});
}

static void add_rows(const char *what, list specs, list l, uint64_t answer, size_t stack, size_t little)
{
    add((call){ENTRY(validated), what, 0, specs, l, 0, ROOM, answer, stack, little});
}

/* Specs of all kinds, the patterns first. With 48 letters a name is as long as that of an item. */
#define LETTERS "aaaaaaaaaaaaaaaaaaaaaaaaaaaaaaaaaaaaaaaaaaaaaaaa"
#define DIGITS "0123456789ABCDEF0123456789abcdef01234567"
static const char *const SPECS[] = {
    "+refs/heads/*:refs/remotes/~/*",
    "refs/remotes/~/*:refs/heads/*",
    DIGITS ":refs/objects/#~",
    "^refs/heads/0003~*",
    "refs/heads/#" LETTERS ":refs/x/~",
    "refs/y/~:refs/heads/#" LETTERS,
    "#" LETTERS ":refs/z/~",
    "~:#" LETTERS,
    NULL};
static const char *const NAMES[] = {"#~", NULL};
static const char *const ITEMS[] = {"refs/heads/#~", NULL};

static void add_all(void)
{
    static const struct {
        const char *what;
        size_t count, stack, little;
    } sizes[] = {
        {"1,024 rows", 1024, VASIGMON_STACK_1024_ROWS, 8192},
        {"16,384 rows", 16384, VASIGMON_STACK_16384_ROWS, VASIGMON_STACK_1024_ROWS},
        {"the largest list", LARGE, VASIGMON_STACK_ROWS, VASIGMON_STACK_16384_ROWS},
    };
    list specs = texts(SPECS, 256, 65535), literals = texts(SPECS + 2, 256, 65535);
    list names = texts(NAMES, 256, 65535), items = texts(ITEMS, 1024, 65535);
    size_t i;

    add_spec("a name", 0, text("~", 4096), 0);
    add_spec("two patterns", 0, text("+refs/heads/~*:refs/remotes/*", 4096), 0);
    add_spec("a push", 1, text("~:refs/heads/a", 4096), 0);
    add_spec("4,097 bytes", 0, text("~", 4097), 1);
    add_spec("operation 2", 2, text("~", 4096), 18);

    add_pair("patterns that collide", text("*:refs/~*", 4096), text("*:*~", 4096), ROOM, 0);
    add_pair("patterns that do not", text("*:*~", 4096), text("*:*~b", 4096), 0, 0);
    add_pair("literals that collide", text("a:~", 4096), text("b:~", 4096), ROOM, 0);
    add_pair("a pattern and an id", text("~*:refs/heads/*", 4096), text("~:" DIGITS, 4096), ROOM, 0);
    add_pair("a pattern and a literal", text("*:refs/~*", 4096), text("aa:refs/~", 4096), ROOM, 0);
    add_pair("4,097 bytes second", text("~:a", 4096), text("~:a", 4097), ROOM, 1);

    add_prefixes("256 names", names, 0, 65536);
    add_prefixes("16 names in 1,024 bytes", texts(NAMES, 16, 1024), 0, 8192);
    add_prefixes("65,536 bytes", and_byte(names, 0), 12, 256);
    add_listings("256 specs, 1,024 items", specs, items, 0, 16384);
    add_listings("256 specs but patterns", literals, items, 0, 16384);
    add_listings("16 specs, 1,024 items", texts(SPECS, 16, 4096), items, 0, 16384);
    add_listings("65,536 bytes of items", specs, and_byte(items, 0), 12, 256);
    add_source("the last item", specs, items, 1024, 0);
    add_source("an object", literals, items, 0, 0);
    add_source("no such item", specs, items, 1025, 16);

    add_rows("1,024 long rows", specs, rows(LONG, 1024), 0, VASIGMON_STACK_1024_ROWS, 8192);
    for (i = 0; i < sizeof sizes / sizeof sizes[0]; i++) {
        size_t n = sizes[i].count, stack = sizes[i].stack, little = sizes[i].little;
        add_rows(sizes[i].what, specs, rows(EMPTY, n), 0, stack, little);
        add_rows(sizes[i].what, specs, rows(DESTINATIONS, n), 0, stack, little);
        add_rows(sizes[i].what, specs, rows(SOURCES, n), CONFLICTS, stack, little);
        add_rows(sizes[i].what, specs, rows(PAIRS, n), CONFLICTS, stack, little);
        add_rows(sizes[i].what, specs, and_byte(rows(EMPTY, n), 128), 13, stack, 256);
    }
}

/* ---- stacks */

/* LARGE bytes that stay as they are, the guard page, and twice LARGE bytes for a stack. */
static uint8_t *ground;

#define STACK (ground + LARGE + PAGE)

static void lay_ground(void)
{
    ground = memory(LARGE + PAGE + 2 * LARGE, MAP_SHARED);
    memset(ground, '#', LARGE);
    expect(mprotect(ground + LARGE, PAGE, PROT_NONE) == 0, "there is no guard page");
}

static int ground_is_as_it_was(void)
{
    return ground[0] == '#' && memcmp(ground, ground + 1, LARGE - 1) == 0;
}

typedef struct {
    const call *made;
    size_t left;                         /* how many bytes of stack the call is left; 0 for all */
    uint64_t answer;
} run;

static void __attribute__((noinline)) make_with_less(run *r, size_t less)
{
    volatile uint8_t taken[less];
    taken[0] = 0;
    r->answer = r->made->make(r->made) + taken[0];
}

static void *on_thread(void *argument)
{
    run *r = (run *)argument;
    if (r->left == 0)
        r->answer = r->made->make(r->made);
    else
        make_with_less(r, (size_t)((uint8_t *)__builtin_frame_address(0) - STACK) - r->left);
    return NULL;
}

/* What a call answers on a thread whose stack has `size` bytes, if it is left so many. */
static uint64_t answer_on(const call *c, size_t size, size_t left)
{
    run r = {c, left, 0};
    pthread_attr_t attributes;
    pthread_t thread;
    expect(pthread_attr_init(&attributes) == 0, "there are no attributes");
    expect(pthread_attr_setstack(&attributes, STACK, size) == 0, "a stack is refused");
    expect(pthread_create(&thread, &attributes, on_thread, &r) == 0, "there is no thread");
    expect(pthread_join(thread, NULL) == 0, "a thread is lost");
    return r.answer;
}

static void fail(const call *c, const char *what, size_t bytes)
{
    printf("stack: %s, %s: %s (%zu)\n", c->entry, c->what, what, bytes);
    exit(1);
}

/* Whether a call is answered as it should be, or else is killed by touching the guard page. */
static int survives(const call *c, size_t size, size_t left)
{
    int status;
    pid_t child = fork();
    expect(child >= 0, "there is no process");
    if (child == 0)
        _exit(answer_on(c, size, left) != c->answer);
    expect(waitpid(child, &status, 0) == child, "a process is lost");
    if (!ground_is_as_it_was())
        fail(c, "memory below the guard page is changed", left);
    if (WIFSIGNALED(status) && WTERMSIG(status) == SIGSEGV)
        return 0;
    if (!WIFEXITED(status) || WEXITSTATUS(status) != 0)
        fail(c, "it has another answer", c->answer);
    return 1;
}

static void keeps(const call *c)
{
    if (!survives(c, c->stack, 0))
        fail(c, "a thread of the stated size is killed", c->stack);
    if (survives(c, 2 * LARGE, c->little))
        fail(c, "too little stack is not too little", c->little);
}

/* The least stack on which a call is answered, to 16 bytes. */
static size_t least(const call *c)
{
    size_t little = 0, enough = LARGE;
    while (enough - little > 16) {
        size_t half = (little + enough) / 32 * 16;
        if (survives(c, 2 * LARGE, half))
            enough = half;
        else
            little = half;
    }
    return enough;
}

int main(int argc, char **argv)
{
    const char *mode = argc == 2 ? argv[1] : "";
    struct rlimit none = {0, 0};
    size_t i;
    setrlimit(RLIMIT_CORE, &none);
    lay_ground();
    out = memory(ROOM, MAP_PRIVATE);
    fixes = memory(ROOM, MAP_PRIVATE);
    add_all();
    for (i = 0; i < count; i++) {
        const call *c = &calls[i];
        if (strcmp(mode, "--entries") == 0)
            printf("%s\n", c->entry);
        else if (strcmp(mode, "--least") == 0)
            printf("%-25s %-25s answer %3d, stated %7zu, least %7zu\n", c->entry, c->what, (int)c->answer, c->stack,
                   least(c));
        else
            keeps(c);
        fflush(stdout);
    }
    if (*mode == 0)
        printf("stack: %zu calls are answered on the stack that is stated, and killed on too little\n", count);
    return 0;
}
