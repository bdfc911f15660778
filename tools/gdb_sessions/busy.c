/* Loops that take more than a million steps, with a call and without one. */
#include "rosm.h"

static unsigned thrice(unsigned x) {
    return 3 * x + 1;
}

static unsigned work(void) {
    unsigned sum = 0;
    for (unsigned k = 0; k < 200000; k++)
        sum += k;
    return sum;
}

int main(void) {
    unsigned sum = 0;
    for (unsigned k = 0; k < 200000; k++) sum += k;
    unsigned calls = 0;
    for (unsigned k = 0; k < 100; k++) calls += thrice(k);
    sum += work();
    return sum == calls;
}
