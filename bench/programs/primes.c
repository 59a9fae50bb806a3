/* The primes below 100 and some factorials, in decimal; its status is a sum over what it printed. */
extern int getchar(void);
extern int putchar(int);

static unsigned sum;

static void put(int c)
{
    sum = sum * 31 + (unsigned)c;
    putchar(c);
}

static void number(unsigned n)
{
    if (n >= 10)
        number(n / 10);
    put('0' + (int)(n % 10));
}

static int is_prime(int n)
{
    int d;
    for (d = 2; d * d <= n; d++)
        if (n % d == 0)
            return 0;
    return 1;
}

static unsigned factorial(unsigned n)
{
    return n == 0 ? 1 : n * factorial(n - 1);
}

int main(void)
{
    unsigned i;
    int n;
    for (n = 2; n < 100; n++)
        if (is_prime(n)) {
            number((unsigned)n);
            put(' ');
        }
    put('\n');
    for (i = 0; i < 13; i++) {
        number(factorial(i));
        put(' ');
    }
    put('\n');
    return (int)(sum & 127);
}
