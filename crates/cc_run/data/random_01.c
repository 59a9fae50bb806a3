void num(unsigned n) { if (n >= 10u) num(n / 10u); putchar((int)(n % 10u) + 48); }
void show(int n) { if (n < 0) { putchar('-'); num(-(unsigned)n); } else num((unsigned)n); putchar(10); }
unsigned g[16]; struct m { char c; unsigned a[4]; char d; } s, w;
unsigned f0(unsigned p0, unsigned p1, unsigned p2, unsigned p3, unsigned p4, unsigned p5) {
  unsigned a; unsigned b; unsigned t; register unsigned u; register unsigned r; char c; int i;
  a = p0; b = p1; t = 0u; u = 1u; r = 2u; c = 0; i = 0;
  g[a & 15u] = (((a & g[a & 15u]) / ((s.a[1] / (s.a[1] | 1u)) | 1u)) % ((((unsigned)((unsigned)c || (unsigned)c)) << (((unsigned)((int)p2 < (int)p1)) & 31u)) | 1u));
  switch ((int)((p2 + p5) & 3u)) { case 0: a = a + 1u; case 1: r = r + ((unsigned)((int)(g[a & 15u] | p1) >= (int)(255u % (g[a & 15u] | 1u)))); break; case 2: b = b ^ t; default: u = u - 1u; }
  u = (((unsigned)(((unsigned)((int)p0 >> (int)((unsigned)i & 31u))) < p4)) & ((t - 7u) % ((u << (p0 & 31u)) | 1u)));
  g[(s.a[1] % (b | 1u)) & 15u] = (((unsigned)((a / ((unsigned)c | 1u)) == t)) | (((unsigned)(a || g[a & 15u])) << ((u * p2) & 31u)));
  switch ((int)(g[a & 15u] & 3u)) { case 0: a = a + 1u; case 1: r = r + ((p5 + b) | p0); break; case 2: b = b ^ t; default: u = u - 1u; }
  s.a[((unsigned)((int)(unsigned)c >> (int)(u & 31u))) & 3u] = ((unsigned)(p0 > s.a[1])); s.c = (char)t; w = s; t = t + w.a[((unsigned)((int)u >> (int)((unsigned)c & 31u))) & 3u] + (unsigned)w.c; s = w;
  r = ((((unsigned)(g[3] && u)) ^ ((unsigned)((int)(unsigned)i > (int)u))) - (p2 - (g[a & 15u] * g[a & 15u])));
  for (i = 0; i < 2; i++) { u = p0; t = t + s.a[1]; }
  c = (char)((p0 >> (a & 31u)) * ((unsigned)((int)t <= (int)a))); t = t ^ (unsigned)c;
  switch ((int)((g[3] ^ u) & 3u)) { case 0: a = a + 1u; case 1: r = r + (b << ((g[3] & p4) & 31u)); break; case 2: b = b ^ t; default: u = u - 1u; }
  s.a[((unsigned)(char)p0) & 3u] = ((unsigned)(((unsigned)i - t) || (p4 ^ p5))); s.c = (char)t; w = s; t = t + w.a[((unsigned)(s.a[1] >= 2u)) & 3u] + (unsigned)w.c; s = w;
  return t ^ a ^ b ^ u ^ r;
}
unsigned f1(unsigned p0, register unsigned p1, unsigned p2, register unsigned p3) {
  unsigned a; unsigned b; unsigned t; register unsigned u; register unsigned r; char c; int i;
  a = p0; b = p1; t = 0u; u = 1u; r = 2u; c = 0; i = 0;
  switch ((int)((t ^ (unsigned)c) & 3u)) { case 0: a = a + 1u; case 1: r = r + (((unsigned)((int)p3 < (int)p0)) & (p3 & p2)); break; case 2: b = b ^ t; default: u = u - 1u; }
  t = (((unsigned)(((unsigned)((int)s.a[1] >> (int)(r & 31u))) < (2114408682u >> ((unsigned)i & 31u)))) ? (((unsigned)(r < p1)) - ((unsigned)(char)p0)) : ((p3 % (r | 1u)) % ((r | g[3]) | 1u)));
  if ((((unsigned)(char)p1) | ((unsigned)((int)g[a & 15u] >> (int)(g[3] & 31u))))) { u = ((((unsigned)(p2 == (unsigned)i)) << (((unsigned)i % (b | 1u)) & 31u)) / (((unsigned)((unsigned)i >= (p0 - r))) | 1u)); } else { g[(p0 % ((unsigned)i | 1u)) & 15u] = (((p2 / (r | 1u)) % ((31u / (u | 1u)) | 1u)) | s.a[1]); }
  r = ((unsigned)(char)(((unsigned)(char)u) + (p2 >> (p0 & 31u))));
  g[(b % (a | 1u)) & 15u] = p3;
  if (((unsigned)((int)(t * g[a & 15u]) == (int)a))) { r = (((t - p3) | ((unsigned)((int)a != (int)(unsigned)c))) & (((unsigned)(g[a & 15u] <= b)) | b)); } else { s.a[(a >> (p1 & 31u)) & 3u] = ((p3 >> (g[3] & 31u)) - (p3 % (g[a & 15u] | 1u))); s.c = (char)t; w = s; t = t + w.a[(s.a[1] & p3) & 3u] + (unsigned)w.c; s = w; }
  t = t + f0((g[a & 15u] * g[a & 15u]), p3, (g[3] >> ((unsigned)i & 31u)), 31u, (r >> (31u & 31u)), ((unsigned)((int)p2 >= (int)(unsigned)i)));
  return t ^ a ^ b ^ u ^ r;
}
int main(void) { int i; unsigned t; t = 0u; for (i = 0; i < 40; i++) { t = t * 3u + f1((unsigned)i, t, 73u, 32u); putchar((int)(t & 63u) + 32); } num(t); return (int)(t & 127u); }
