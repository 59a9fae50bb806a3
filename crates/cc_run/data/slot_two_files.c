static int count;
int step(int by) { count = count + by; return count; }
