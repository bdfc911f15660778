#include "rosm.h" /* Functions that a session of GDB goes back through, one of which calls itself. */
static int total;
int twice(int x) { return x + x; }
int sum(int n) { if (n == 0) return 0; int rest = sum(n - 1); return rest + n; }
int main(void)
{
    for (int i = 0; i < 6; i++) {
        total += twice(i);
        total += sum(i);
    }
    write_character('0' + total % 8);
    return total;
}
