void reverse(void) { int c = getchar(); if (c == -1 || c == '\n') return; reverse(); putchar(c); }
int main(void) { reverse(); putchar('\n'); reverse(); return 0; }
