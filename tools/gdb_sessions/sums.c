/* Sums, for sessions of GDB: a function that calls itself, a struct, and one to be called by GDB. */
#include "rosm.h"

struct range {
    unsigned first;
    unsigned last;
};

static unsigned total;

__attribute__((noinline)) static unsigned sum(const struct range *range)
{
    struct range rest = { range->first + 1, range->last };

    if (range->first > range->last)
        return 0;
    return range->first + sum(&rest);
}

__attribute__((noinline)) static unsigned twice(unsigned number)
{
    return number + number;
}

int main(void)
{
    struct range range = { 1, 4 };

    total = sum(&range);
    range.first = 2;
    total += sum(&range);
    total += twice(total);
    write_character('0' + total - 50);
    return 0;
}
