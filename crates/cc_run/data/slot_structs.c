struct point { int x; char tag; int y; };
struct line { struct point from; struct point to[2]; };
struct line lines[2] = { { { 1, 'a', 2 } } };
struct point origin;
int cross(struct point *p) { return p->x * 10 + p->y; }
int main(void) {
  struct point a;
  struct line l;
  struct point *p = &a;
  a.x = 3; p->y = 4; (*p).tag = 'q';
  l.from = a;
  l.to[1] = l.from;
  l.to[0] = lines[0].from;
  lines[1] = l;
  origin = lines[1].to[1];
  a = *&origin;
  putchar(origin.tag); putchar(lines[1].to[0].tag); putchar(lines->from.y + '0');
  p = &lines[1].to[1];
  return cross(p) + cross(&lines[1].to[0]) + sizeof(struct line);
}
