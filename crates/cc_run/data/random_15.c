void num(unsigned n) { if (n >= 10u) num(n / 10u); putchar((int)(n % 10u) + 48); }
void show(int n) { if (n < 0) { putchar('-'); num(-(unsigned)n); } else num((unsigned)n); putchar(10); }
unsigned g[16]; struct m { char c; unsigned a[4]; char d; } s, w;
unsigned f0(register unsigned p0, register unsigned p1) {
  unsigned a; unsigned b; unsigned t; unsigned u; register unsigned r; char c; int i;
  a = p0; b = p1; t = 0u; u = 1u; r = 2u; c = 0; i = 0;
  g[u & 15u] = r;
  for (i = 0; i < 3; i++) { b = (((unsigned)(s.a[1] || g[3])) >> (((unsigned)i & (unsigned)i) & 31u)); t = t + t; }
  a = (((r / (g[3] | 1u)) << ((r ? t : a) & 31u)) & (unsigned)c);
  switch ((int)((unsigned)c & 3u)) { case 0: a = a + 1u; case 1: r = r + (((unsigned)(char)31u) / (((unsigned)i << (g[a & 15u] & 31u)) | 1u)); break; case 2: b = b ^ t; default: u = u - 1u; }
  t = (g[3] | (((unsigned)c >> (t & 31u)) / ((g[3] ^ s.a[1]) | 1u)));
  s.a[(p1 - p0) & 3u] = ((p1 / ((unsigned)c | 1u)) >> (((unsigned)(t < t)) & 31u)); s.c = (char)t; w = s; t = t + w.a[(r - (unsigned)i) & 3u] + (unsigned)w.c; s = w;
  return t ^ a ^ b ^ u ^ r;
}
unsigned f1(unsigned p0, unsigned p1, register unsigned p2) {
  unsigned a; unsigned b; unsigned t; unsigned u; register unsigned r; char c; int i;
  a = p0; b = p1; t = 0u; u = 1u; r = 2u; c = 0; i = 0;
  c = (char)((s.a[1] - (unsigned)c) + ((unsigned)(a <= p0))); t = t ^ (unsigned)c;
  r = ((unsigned)(char)s.a[1]);
  t = (((s.a[1] - u) % (((unsigned)(p0 >= p2)) | 1u)) / (((unsigned)((int)(g[3] >> (p0 & 31u)) > (int)(u - 65535u))) | 1u));
  switch ((int)((p2 & g[3]) & 3u)) { case 0: a = a + 1u; case 1: r = r + ((p0 >> (0u & 31u)) << ((t / (b | 1u)) & 31u)); break; case 2: b = b ^ t; default: u = u - 1u; }
  u = ((unsigned)(((g[3] + (unsigned)i) ^ u) >= p2));
  c = (char)(((unsigned)((int)u <= (int)r)) ? 255u : (r >> (r & 31u))); t = t ^ (unsigned)c;
  b = t;
  t = t + f0(((unsigned)i / (g[a & 15u] | 1u)), s.a[1]);
  return t ^ a ^ b ^ u ^ r;
}
int main(void) { int i; unsigned t; t = 0u; for (i = 0; i < 40; i++) { t = t * 3u + f1((unsigned)i, t, 7u); putchar((int)(t & 63u) + 32); } num(t); return (int)(t & 127u); }
