void num(unsigned n) { if (n >= 10u) num(n / 10u); putchar((int)(n % 10u) + 48); }
void show(int n) { if (n < 0) { putchar('-'); num(-(unsigned)n); } else num((unsigned)n); putchar(10); }
struct node { int v; struct node *l; struct node *r; } pool[40]; int used; struct node *root;
struct node *new(int v) { struct node *p; p = &pool[used++]; p->v = v; return p; }
void insert(struct node **at, int v) { while (*at) { if (v < (*at)->v) at = &(*at)->l; else at = &(*at)->r; } *at = new(v); }
int depth(struct node *p) { int a; int b; if (!p) return 0; a = depth(p->l); b = depth(p->r); return 1 + (a > b ? a : b); }
void walk(struct node *p) { if (p) { walk(p->l); show(p->v); walk(p->r); } }
int main(void) { int i; int v; v = 17; for (i = 0; i < 20; i++) { insert(&root, v); v = v * 37 % 101; } walk(root); show(depth(root)); return used; }