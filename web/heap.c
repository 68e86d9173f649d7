// The heap of the page's module. It serves one run, in a memory of its own, which the page throws away
// afterwards: so freed blocks are kept for blocks of their size, and nothing goes back.
//
// A block has a power of two in bytes, from 32, and begins with 16 that keep which power it is; so each
// block is aligned to 16. Nothing of this file is proved.
typedef __SIZE_TYPE__ size_t;
typedef unsigned char byte;

// What the program's library expects of an allocation.
struct Tried {
  unsigned long long ok;
  byte *block;
};

struct Free {
  struct Free *next;
};

enum { HEAD = 16, FIRST = 5, POWERS = 48, PAGE = 16, PAGES_AT_ONCE = 256 };

static struct Free *freed[POWERS];
static byte *next = 0;
static byte *end = 0;

// The library counts live blocks here in its own tests.
unsigned long long rattle_heap_live = 0;

// The least power of two that holds so many bytes after the head.
static int power_of(size_t size) {
  int power = FIRST;
  while (power < POWERS && ((size_t)1 << power) < size + HEAD) power++;
  return power;
}

// Makes room for so many bytes, from pages that nothing else has: the page of the host grows the memory
// too, for what it hands in, and keeps what it gets.
static int grow(size_t size) {
  size_t pages = (size + (1 << PAGE) - 1) >> PAGE;
  if (pages < PAGES_AT_ONCE) pages = PAGES_AT_ONCE;
  size_t before = __builtin_wasm_memory_grow(0, pages);
  if (before == (size_t)-1) return 0;
  byte *start = (byte *)(before << PAGE);
  if (start != end) next = start;
  end = start + (pages << PAGE);
  return 1;
}

static byte *take(size_t size) {
  int power = power_of(size);
  if (power >= POWERS) return 0;
  struct Free *block = freed[power];
  if (block) {
    freed[power] = block->next;
  } else {
    size_t whole = (size_t)1 << power;
    if ((size_t)(end - next) < whole && !grow(whole)) return 0;
    block = (struct Free *)next;
    next += whole;
  }
  *(size_t *)block = power;
  return (byte *)block + HEAD;
}

struct Tried rattle_alloc(size_t size, size_t align) {
  byte *block = take(size);
  return (struct Tried){block != 0, block};
}

void rattle_dealloc(byte *block) {
  struct Free *gone = (struct Free *)(block - HEAD);
  size_t power = *(size_t *)gone;
  gone->next = freed[power];
  freed[power] = gone;
}

struct Tried rattle_realloc(byte *block, size_t kept, size_t size, size_t align) {
  size_t power = *(size_t *)(block - HEAD);
  if (size + HEAD <= (size_t)1 << power) return (struct Tried){1, block};
  byte *moved = take(size);
  if (!moved) return (struct Tried){0, 0};
  __builtin_memcpy(moved, block, kept < size ? kept : size);
  rattle_dealloc(block);
  return (struct Tried){1, moved};
}
