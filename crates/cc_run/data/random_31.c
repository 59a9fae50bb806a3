void num(unsigned n) { if (n >= 10u) num(n / 10u); putchar((int)(n % 10u) + 48); }
void show(int n) { if (n < 0) { putchar('-'); num(-(unsigned)n); } else num((unsigned)n); putchar(10); }
unsigned g[16]; struct m { char c; unsigned a[4]; char d; } s, w;
unsigned f0(unsigned p0, unsigned p1, unsigned p2, register unsigned p3, unsigned p4) {
  unsigned a; unsigned b; unsigned t; unsigned u; register unsigned r; char c; int i;
  a = p0; b = p1; t = 0u; u = 1u; r = 2u; c = 0; i = 0;
  s.a[(b | p4) & 3u] = (g[a & 15u] & ((unsigned)((int)g[a & 15u] > (int)g[a & 15u]))); s.c = (char)t; w = s; t = t + w.a[g[a & 15u] & 3u] + (unsigned)w.c; s = w;
  g[((unsigned)((int)s.a[1] >> (int)(p0 & 31u))) & 15u] = ((unsigned)((int)((g[3] ^ p1) >> (((unsigned)((int)p4 == (int)b)) & 31u)) == (int)(g[3] % (((unsigned)i ^ 2147483648u) | 1u))));
  a = ((g[a & 15u] * ((unsigned)((int)p4 >> (int)(p0 & 31u)))) ? ((b ? u : b) | (g[3] - p2)) : ((unsigned)(char)((unsigned)(char)u)));
  if (((unsigned)((int)3u >> (int)(((unsigned)(char)t) & 31u)))) { a = (((s.a[1] / (g[a & 15u] | 1u)) << (p2 & 31u)) % (((p3 * b) / ((a ? (unsigned)c : p4) | 1u)) | 1u)); } else { switch ((int)(((unsigned)(char)a) & 3u)) { case 0: a = a + 1u; case 1: r = r + ((unsigned)((int)p2 >> (int)((p4 / (p2 | 1u)) & 31u))); break; case 2: b = b ^ t; default: u = u - 1u; } }
  r = ((unsigned)((((unsigned)(char)(unsigned)c) % ((p0 % (p4 | 1u)) | 1u)) || ((unsigned)((g[3] ^ (unsigned)i) && ((unsigned)(u <= p1))))));
  return t ^ a ^ b ^ u ^ r;
}
unsigned f1(unsigned p0, unsigned p1, register unsigned p2) {
  unsigned a; unsigned b; unsigned t; register unsigned u; register unsigned r; char c; int i;
  a = p0; b = p1; t = 0u; u = 1u; r = 2u; c = 0; i = 0;
  if (((unsigned)i >> ((r | s.a[1]) & 31u))) { for (i = 0; i < 4; i++) { a = ((unsigned)i * (t & 3u)); t = t + a; } } else { switch ((int)((65535u + p1) & 3u)) { case 0: a = a + 1u; case 1: r = r + (a ? (a - (unsigned)c) : ((unsigned)((int)(unsigned)i >> (int)(b & 31u)))); break; case 2: b = b ^ t; default: u = u - 1u; } }
  for (i = 0; i < 2; i++) { b = ((3u & (unsigned)i) << ((p0 + (unsigned)c) & 31u)); t = t + t; }
  t = ((s.a[1] - (s.a[1] * g[3])) ? ((unsigned)(char)((unsigned)(char)r)) : ((t * a) ? ((unsigned)(char)u) : (unsigned)c));
  if ((u + (r << (4294967295u & 31u)))) { a = (((unsigned)(char)(g[3] * 1u)) | ((2147483648u - u) / ((unsigned)c | 1u))); } else { r = ((unsigned)((int)(unsigned)i >> (int)(((unsigned)((int)(a & b) == (int)g[3])) & 31u))); }
  g[(r >> (p2 & 31u)) & 15u] = ((unsigned)((int)(((unsigned)(r >= p2)) >> ((g[3] | (unsigned)c) & 31u)) >> (int)(((unsigned)(char)(g[a & 15u] >> (a & 31u))) & 31u)));
  switch ((int)(((unsigned)c >> ((unsigned)c & 31u)) & 3u)) { case 0: a = a + 1u; case 1: r = r + g[a & 15u]; break; case 2: b = b ^ t; default: u = u - 1u; }
  s.a[(r ? t : g[3]) & 3u] = (((unsigned)i >> (u & 31u)) + (p1 & b)); s.c = (char)t; w = s; t = t + w.a[(2u >> (g[a & 15u] & 31u)) & 3u] + (unsigned)w.c; s = w;
  t = t + f0(0u, (u ? s.a[1] : s.a[1]), (65535u / (r | 1u)), (r >> (g[3] & 31u)), (a ? p1 : (unsigned)i));
  return t ^ a ^ b ^ u ^ r;
}
int main(void) { int i; unsigned t; t = 0u; for (i = 0; i < 40; i++) { t = t * 3u + f1((unsigned)i, t, 35u); putchar((int)(t & 63u) + 32); } num(t); return (int)(t & 127u); }
