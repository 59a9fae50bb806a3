/* Moves a tower of three rings from A to C, and writes the moves. */
int moves;

void hanoi(int rings, char from, char to, char over) {
  if (rings == 0)
    return;
  hanoi(rings - 1, from, over, to);
  moves = moves + 1;
  putchar(from);
  putchar(to);
  putchar('\n');
  hanoi(rings - 1, over, to, from);
}

int main(void) {
  hanoi(3, 'A', 'C', 'B');
  return moves;
}
