struct node { int value; struct node *next; };
struct node pool[4];
struct node *list;
int used;
void add(int v) { struct node *n = &pool[used++]; n->value = v; n->next = list; list = n; }
int main(void) {
  struct node *n;
  struct node **hole;
  add('a'); add('b'); add('c'); add('d');
  for (n = list; n; n = n->next) putchar(n->value);
  hole = &list;
  while ((*hole)->value != 'b') hole = &(*hole)->next;
  *hole = (*hole)->next;
  for (n = list; n != 0; n = n->next) putchar(n->value);
  return list->next - pool;
}
