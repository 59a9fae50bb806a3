int x;
int f(void) { return 1; }
int main(void) { x = 5; return x + f(); }
