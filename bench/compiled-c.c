/* What compiled programs do, in turn: a sieve, a quicksort, a checksum, copies and comparisons of text, calls of a
   function by itself, a tree, division by shifts, a product of matrices, and a switch. compiled-c.script has the image
   that GCC makes of it (README.md). */
typedef unsigned char byte;

struct node {
    struct node *left, *right;
    unsigned key;
};

enum { NUMBERS = 8192, WORDS = 2048, CHARACTERS = 4096, NODES = 600, SIDE = 16, ROUNDS = 20 };

static byte is_prime[NUMBERS];
static unsigned words[WORDS];
static unsigned checks[256];
static char text[CHARACTERS], copy[CHARACTERS];
static struct node nodes[NODES];
static int nodes_used;
static int first[SIDE][SIDE], second[SIDE][SIDE], product[SIDE][SIDE];

static unsigned random(void)
{
    static unsigned seed = 1;
    seed = seed * 1664525u + 1013904223u;
    return seed >> 8;
}

static unsigned count_primes(void)
{
    unsigned count = 0;
    for (unsigned i = 0; i < NUMBERS; i++)
        is_prime[i] = 1;
    for (unsigned i = 2; i < NUMBERS; i++)
        if (is_prime[i]) {
            count++;
            for (unsigned j = i + i; j < NUMBERS; j += i)
                is_prime[j] = 0;
        }
    return count;
}

static void sort(unsigned *list, int low, int high)
{
    int i = low, j = high;
    unsigned middle = list[(low + high) >> 1];
    while (i <= j) {
        while (list[i] < middle)
            i++;
        while (list[j] > middle)
            j--;
        if (i <= j) {
            unsigned word = list[i];
            list[i++] = list[j];
            list[j--] = word;
        }
    }
    if (low < j)
        sort(list, low, j);
    if (i < high)
        sort(list, i, high);
}

static void make_checks(void)
{
    for (unsigned i = 0; i < 256; i++) {
        unsigned check = i;
        for (int bit = 0; bit < 8; bit++)
            check = check & 1 ? 0xEDB88320u ^ (check >> 1) : check >> 1;
        checks[i] = check;
    }
}

static unsigned check_of(const char *from, int length)
{
    unsigned check = ~0u;
    for (int i = 0; i < length; i++)
        check = checks[(check ^ (byte)from[i]) & 255] ^ (check >> 8);
    return ~check;
}

static void copy_text(char *to, const char *from, int length)
{
    while (length--)
        *to++ = *from++;
}

static int compare_text(const char *one, const char *other)
{
    while (*one && *one == *other)
        one++, other++;
    return (byte)*one - (byte)*other;
}

static int fibonacci(int n)
{
    return n < 2 ? n : fibonacci(n - 1) + fibonacci(n - 2);
}

static struct node *with_key(struct node *tree, unsigned key)
{
    if (!tree) {
        tree = &nodes[nodes_used++];
        tree->left = tree->right = 0;
        tree->key = key;
    } else if (key < tree->key)
        tree->left = with_key(tree->left, key);
    else
        tree->right = with_key(tree->right, key);
    return tree;
}

static unsigned sum_of(const struct node *tree)
{
    return tree ? tree->key + sum_of(tree->left) + sum_of(tree->right) : 0;
}

static unsigned quotient(unsigned number, unsigned divisor)
{
    unsigned result = 0, rest = 0;
    for (int bit = 31; bit >= 0; bit--) {
        rest = rest << 1 | (number >> bit & 1);
        if (rest >= divisor) {
            rest -= divisor;
            result |= 1u << bit;
        }
    }
    return result;
}

static void multiply(void)
{
    for (int i = 0; i < SIDE; i++)
        for (int j = 0; j < SIDE; j++) {
            int sum = 0;
            for (int k = 0; k < SIDE; k++)
                sum += first[i][k] * second[k][j];
            product[i][j] = sum;
        }
}

static int changed(int state, int by)
{
    switch (by & 7) {
    case 0:
        return state + 1;
    case 1:
        return state ^ by;
    case 2:
        return state - 3;
    case 3:
        return state << 1;
    case 4:
        return state >> 1;
    case 5:
        return state * 3;
    case 6:
        return -state;
    default:
        return state | 1;
    }
}

unsigned main(void)
{
    unsigned result = 0;
    make_checks();
    for (int round = 0; round < ROUNDS; round++) {
        result += count_primes();
        for (int i = 0; i < WORDS; i++)
            words[i] = random();
        sort(words, 0, WORDS - 1);
        result ^= words[round * 7];
        for (int i = 0; i < CHARACTERS - 1; i++)
            text[i] = 'a' + (random() & 15);
        result ^= check_of(text, CHARACTERS - 1);
        copy_text(copy, text, CHARACTERS - 1);
        result += compare_text(copy, text);
        result += fibonacci(14);
        struct node *tree = 0;
        nodes_used = 0;
        for (int i = 0; i < NODES; i++)
            tree = with_key(tree, random());
        result += sum_of(tree);
        for (int i = 0; i < 100; i++) {
            unsigned number = random();
            result += quotient(number, (random() & 255) + 1);
        }
        for (int i = 0; i < SIDE * SIDE; i++) {
            first[i / SIDE][i % SIDE] = random() & 31;
            second[i / SIDE][i % SIDE] = i;
        }
        multiply();
        result += product[3][round % SIDE];
        for (int i = 0; i < 2000; i++)
            result = changed(result, random());
    }
    return result;
}
