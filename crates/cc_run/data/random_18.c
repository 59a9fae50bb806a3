void num(unsigned n) { if (n >= 10u) num(n / 10u); putchar((int)(n % 10u) + 48); }
void show(int n) { if (n < 0) { putchar('-'); num(-(unsigned)n); } else num((unsigned)n); putchar(10); }
unsigned g[16]; struct m { char c; unsigned a[4]; char d; } s, w;
unsigned f0(register unsigned p0, unsigned p1) {
  unsigned a; unsigned b; unsigned t; register unsigned u; register unsigned r; char c; int i;
  a = p0; b = p1; t = 0u; u = 1u; r = 2u; c = 0; i = 0;
  g[(p0 ? s.a[1] : r) & 15u] = ((((unsigned)i * p1) / ((3u >> (g[3] & 31u)) | 1u)) & ((s.a[1] << (p0 & 31u)) % ((p0 | g[a & 15u]) | 1u)));
  b = ((((unsigned)((int)2u >= (int)g[a & 15u])) ? s.a[1] : g[3]) >> (((unsigned)(p1 && (a >> ((unsigned)c & 31u)))) & 31u));
  r = ((unsigned)(char)(((unsigned)i % (2u | 1u)) | ((unsigned)((int)0u >> (int)(31u & 31u)))));
  if ((((unsigned)(g[a & 15u] >= b)) | ((unsigned)((int)1u >> (int)(r & 31u))))) { switch ((int)((u | 4294967295u) & 3u)) { case 0: a = a + 1u; case 1: r = r + ((unsigned)((int)((unsigned)(char)p0) < (int)(unsigned)c)); break; case 2: b = b ^ t; default: u = u - 1u; } } else { if (((r >> (g[a & 15u] & 31u)) | (unsigned)i)) { r = p1; } else { b = (g[a & 15u] ^ (unsigned)i); } }
  g[(u ? 3u : r) & 15u] = ((((unsigned)((int)p0 >> (int)(t & 31u))) % ((u - g[3]) | 1u)) >> (((t - p0) * 4294967295u) & 31u));
  a = (((u >> (g[a & 15u] & 31u)) >> ((p0 & u) & 31u)) + ((s.a[1] % ((unsigned)c | 1u)) & p1));
  return t ^ a ^ b ^ u ^ r;
}
unsigned f1(register unsigned p0, unsigned p1, register unsigned p2, unsigned p3, unsigned p4, unsigned p5) {
  unsigned a; unsigned b; unsigned t; register unsigned u; register unsigned r; char c; int i;
  a = p0; b = p1; t = 0u; u = 1u; r = 2u; c = 0; i = 0;
  u = ((unsigned)((int)(((unsigned)(p2 && t)) * (p0 % (b | 1u))) >> (int)(s.a[1] & 31u)));
  for (i = 0; i < 5; i++) { a = ((s.a[1] & p3) << ((p0 + a) & 31u)); t = t + r; }
  c = (char)((s.a[1] & p2) & ((unsigned)((int)p0 < (int)p4))); t = t ^ (unsigned)c;
  a = (((b * p0) % (((unsigned)(char)t) | 1u)) % (((p4 >> (p0 & 31u)) & ((unsigned)(g[3] >= (unsigned)c))) | 1u));
  b = (((r / (p0 | 1u)) >> (((unsigned)(p5 <= p1)) & 31u)) ? ((g[3] - 65535u) / ((p1 >> (p2 & 31u)) | 1u)) : ((unsigned)c ? (unsigned)c : (t / (p3 | 1u))));
  a = ((unsigned)(((unsigned)((int)((unsigned)((int)(unsigned)i <= (int)4294967295u)) >> (int)(((unsigned)(char)p5) & 31u))) && ((t * a) + (a ? a : (unsigned)c))));
  c = (char)31u; t = t ^ (unsigned)c;
  if (((p0 << (p2 & 31u)) + g[3])) { a = p4; } else { a = ((unsigned)(char)p3); }
  u = (t ^ ((unsigned)(char)(t * p4)));
  for (i = 0; i < 5; i++) { a = ((p3 + p0) | r); t = t + a; }
  if (p0) { for (i = 0; i < 4; i++) { u = ((unsigned)c << ((unsigned)c & 31u)); t = t + p1; } } else { t = ((p2 / ((s.a[1] / (u | 1u)) | 1u)) ^ ((p3 | t) | ((unsigned)(char)(unsigned)c))); }
  t = t + f0((p1 << (g[a & 15u] & 31u)), (p3 >> (p1 & 31u)));
  return t ^ a ^ b ^ u ^ r;
}
int main(void) { int i; unsigned t; t = 0u; for (i = 0; i < 40; i++) { t = t * 3u + f1((unsigned)i, t, 25u, 10u, 86u, 36u); putchar((int)(t & 63u) + 32); } num(t); return (int)(t & 127u); }
