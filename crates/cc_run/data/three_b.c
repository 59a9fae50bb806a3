static int seen = 100;
static int step(void) { return 1; }
int label(int n);
int total(int more) { seen = seen + more + step(); return label(seen); }
