int total(int more);
extern int shared[3];
static int seen = 10;
int main(void) { int i; for (i = 0; i < 3; i = i + 1) { seen = seen + shared[i]; total(seen); } putchar('0' + total(0) % 10); return seen; }
