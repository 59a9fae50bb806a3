int moves;
void hanoi(int n, char from, char to, char by) {
  if (n == 0) return;
  hanoi(n - 1, from, by, to);
  moves++; putchar(from); putchar(to); putchar(' ');
  hanoi(n - 1, by, to, from);
}
int main(void) { hanoi(3, 'a', 'b', 'c'); return moves; }
