static int depth;
static int cells[4];

static int is_full(void) { return depth == 4; }

int push(int number) {
  if (is_full())
    return 0;
  cells[depth] = number;
  depth = depth + 1;
  return 1;
}

int pop(void) {
  depth = depth - 1;
  return cells[depth];
}
