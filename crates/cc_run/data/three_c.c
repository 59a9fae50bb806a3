static char *seen[] = {"abc", "de"};
int shared[3] = {1, 2, 3};
static int step(void) { return 2; }
int label(int n) { putchar(seen[n & 1][step() - 1]); return n; }
