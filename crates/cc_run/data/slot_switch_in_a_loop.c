int main(void) {
  int c;
  int n = 0;
  for (;;) {
    switch (c = getchar()) {
    case -1: return n;
    case '+': n++; continue;
    case '-': n--; break;
    case '*': { int i; for (i = 0; i < 3; i++) { if (i == 2) break; n *= 2; } } break;
    default: putchar(c); continue;
    }
    putchar('.');
  }
}
