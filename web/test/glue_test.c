/* For web/test/pages_test.py: numbers of 128 bits, by the functions of web/wasm/glue.c that the compiler calls. */
typedef unsigned long long u64;
typedef unsigned __int128 u128;

static u64 result[2];
__attribute__((export_name("result_at"))) u64 *result_at(void) { return result; }

static void give(u128 value) {
  result[0] = (u64)value;
  result[1] = (u64)(value >> 64);
}

__attribute__((export_name("multiply"))) void multiply(u64 a_low, u64 a_high, u64 b_low, u64 b_high) {
  give(((u128)a_high << 64 | a_low) * ((u128)b_high << 64 | b_low));
}

__attribute__((export_name("divide"))) void divide(u64 a_low, u64 a_high, u64 b_low, u64 b_high) {
  give(((u128)a_high << 64 | a_low) / ((u128)b_high << 64 | b_low));
}
