/* What the machine's module needs beside itself in a page: memory, as the toolchain's own C code hands it out, and the
   few functions of a C library that the module names. Pointers have 32 bits here, and sizes 64. */

typedef unsigned char u8;
typedef unsigned int u32;
typedef unsigned long long u64;

#define PAGE 65536u
/* A block of class c has two to the power c of bytes. Before those that are handed out stands its class. */
#define BEFORE 16u
#define SMALLEST_CLASS 5
#define LARGEST_CLASS 30

/* An address; is_there is 0 where there is none. */
typedef struct { u64 is_there, address; } tried;
struct free_block { u32 class_of_it; struct free_block *next; };

extern u8 __heap_base;
static u8 *top;
static struct free_block *free_blocks[LARGEST_CLASS + 1];
/* What is handed out where there is nothing. */
static u8 nothing[16] __attribute__((aligned(16)));

static int class_for(u64 bytes) {
  int c = SMALLEST_CLASS;
  while (c <= LARGEST_CLASS && ((u64)1 << c) < bytes) c++;
  return c;
}

/* Room from the end of memory, which grows by pages; 0 where it can't. */
static u8 *more(u64 bytes) {
  if (!top) top = (u8 *)(((u32)&__heap_base + 15u) & ~15u);
  u64 end = (u64)(u32)top + bytes, have = (u64)__builtin_wasm_memory_size(0) * PAGE;
  if (end > have && __builtin_wasm_memory_grow(0, (u32)((end - have + PAGE - 1) / PAGE)) == (u32)-1) return 0;
  u8 *at = top;
  top = (u8 *)(u32)end;
  return at;
}

static u8 *allocate(u64 bytes) {
  int c = bytes > ((u64)1 << LARGEST_CLASS) ? LARGEST_CLASS + 1 : class_for(bytes + BEFORE);
  if (c > LARGEST_CLASS) return 0;
  struct free_block *block = free_blocks[c];
  if (block) free_blocks[c] = block->next;
  else block = (struct free_block *)more((u64)1 << c);
  if (!block) return 0;
  block->class_of_it = (u32)c;
  return (u8 *)block + BEFORE;
}

void rattle_dealloc(void *at) {
  if (at == nothing) return;
  struct free_block *block = (struct free_block *)((u8 *)at - BEFORE);
  block->next = free_blocks[block->class_of_it];
  free_blocks[block->class_of_it] = block;
}

static tried answer(u8 *at) {
  tried result = {at != 0, (u64)(u32)(at ? at : nothing)};
  return result;
}

/* Each block is aligned to 16 bytes, which is more than the module asks for. */
tried rattle_alloc(u64 bytes, u64 align) { return answer(align > BEFORE ? 0 : allocate(bytes)); }

tried rattle_realloc(void *at, u64 kept, u64 bytes, u64 align) {
  u8 *moved = align > BEFORE ? 0 : allocate(bytes);
  if (!moved) return answer(0);
  __builtin_memcpy(moved, at, (u32)(kept < bytes ? kept : bytes));
  rattle_dealloc(at);
  return answer(moved);
}

/* For the page: room for a script and its answers. 0 where there is none. */
__attribute__((export_name("take"))) u8 *take(u32 bytes) { return allocate(bytes); }
__attribute__((export_name("give"))) void give(u8 *at) { rattle_dealloc(at); }

/* The product of two numbers of 128 bits, each in two halves: by the halves of the low ones, and the rest. */
typedef struct { u64 low, high; } wide;
wide __multi3(u64 a_low, u64 a_high, u64 b_low, u64 b_high) {
  const u64 half = 0xFFFFFFFFu;
  u64 a0 = a_low & half, a1 = a_low >> 32, b0 = b_low & half, b1 = b_low >> 32;
  u64 p00 = a0 * b0, p01 = a0 * b1, p10 = a1 * b0, p11 = a1 * b1;
  u64 middle = (p00 >> 32) + (p01 & half) + (p10 & half);
  wide product = {(p00 & half) | (middle << 32),
                  p11 + (p01 >> 32) + (p10 >> 32) + (middle >> 32) + a_low * b_high + a_high * b_low};
  return product;
}

/* The quotient of two numbers of 128 bits, bit by bit where they don't fit 64. A page never divides by 0: the module
   checks that. */
wide __udivti3(u64 a_low, u64 a_high, u64 b_low, u64 b_high) {
  wide quotient = {0, 0};
  if (!a_high && !b_high) {
    quotient.low = a_low / b_low;
    return quotient;
  }
  u64 rest_low = 0, rest_high = 0;
  for (int bit = 127; bit >= 0; bit--) {
    u64 carried = rest_high >> 63;
    rest_high = rest_high << 1 | rest_low >> 63;
    rest_low = rest_low << 1 | ((bit < 64 ? a_low >> bit : a_high >> (bit - 64)) & 1);
    if (!carried && (rest_high < b_high || (rest_high == b_high && rest_low < b_low))) continue;
    rest_high -= b_high + (rest_low < b_low);
    rest_low -= b_low;
    if (bit < 64) quotient.low |= (u64)1 << bit; else quotient.high |= (u64)1 << (bit - 64);
  }
  return quotient;
}

/* The library prints nothing, and no process ends with it. */
u64 write(u32 file, const void *from, u64 count) { return (u64)-1; }
u32 rattle_errno(void) { return 0; }
void rattle_set_errno(u32 number) {}
void abort(void) { __builtin_trap(); }
u64 rattle_arg(u64 number, void *to, u64 count) { return 0; }
void __rattle_write_place(void) {}
void *__rattle_keep_place(void *at) { return at; }
u64 __sysv_signal(u32 number, u64 act) { return 0; }
