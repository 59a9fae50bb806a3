void num(unsigned n) { if (n >= 10u) num(n / 10u); putchar((int)(n % 10u) + 48); }
void show(int n) { if (n < 0) { putchar('-'); num(-(unsigned)n); } else num((unsigned)n); putchar(10); }
unsigned g[16]; struct m { char c; unsigned a[4]; char d; } s, w;
unsigned f0(unsigned p0, unsigned p1, register unsigned p2, register unsigned p3, unsigned p4, unsigned p5, register unsigned p6) {
  unsigned a; unsigned b; unsigned t; unsigned u; register unsigned r; char c; int i;
  a = p0; b = p1; t = 0u; u = 1u; r = 2u; c = 0; i = 0;
  c = (char)(p4 - (t | g[a & 15u])); t = t ^ (unsigned)c;
  b = (unsigned)c;
  if (((s.a[1] % ((unsigned)c | 1u)) ^ (p3 >> (u & 31u)))) { r = (g[a & 15u] / (((p0 + g[3]) ^ (u >> (t & 31u))) | 1u)); } else { if (((p6 & r) | ((unsigned)((int)g[a & 15u] > (int)(unsigned)c)))) { b = ((unsigned)(char)((g[a & 15u] << (u & 31u)) & p2)); } else { t = p5; } }
  for (i = 0; i < 3; i++) { b = ((p1 - 3u) >> ((r & p6) & 31u)); t = t + s.a[1]; }
  c = (char)((p5 << (p4 & 31u)) << ((p0 / (2410556129u | 1u)) & 31u)); t = t ^ (unsigned)c;
  return t ^ a ^ b ^ u ^ r;
}
unsigned f1(unsigned p0, register unsigned p1, unsigned p2, register unsigned p3, unsigned p4, register unsigned p5, unsigned p6, unsigned p7) {
  unsigned a; unsigned b; unsigned t; register unsigned u; register unsigned r; char c; int i;
  a = p0; b = p1; t = 0u; u = 1u; r = 2u; c = 0; i = 0;
  s.a[(g[3] << (a & 31u)) & 3u] = ((p0 + (unsigned)i) | b); s.c = (char)t; w = s; t = t + w.a[u & 3u] + (unsigned)w.c; s = w;
  t = ((unsigned)(((t ? g[a & 15u] : g[a & 15u]) + (g[a & 15u] << (p5 & 31u))) > ((p0 | (unsigned)c) / ((p6 & (unsigned)i) | 1u))));
  s.a[((unsigned)(char)g[3]) & 3u] = ((u % (s.a[1] | 1u)) << ((t * a) & 31u)); s.c = (char)t; w = s; t = t + w.a[(p2 % (b | 1u)) & 3u] + (unsigned)w.c; s = w;
  b = (((unsigned)((p7 & (unsigned)c) <= (g[a & 15u] << (p1 & 31u)))) + ((p3 + a) - (u ? p1 : u)));
  r = ((unsigned)((int)((unsigned)((int)(p0 * p4) >> (int)(a & 31u))) >> (int)((((unsigned)(char)p3) << ((a & p5) & 31u)) & 31u)));
  t = (((p1 / (u | 1u)) - (b / (g[3] | 1u))) | ((b / (p5 | 1u)) - (unsigned)c));
  t = t + f0((p6 - u), b, (p1 / (t | 1u)), (p0 & p7), (g[a & 15u] + a), (a | p2), p7);
  return t ^ a ^ b ^ u ^ r;
}
unsigned f2(unsigned p0, unsigned p1, register unsigned p2, unsigned p3) {
  unsigned a; unsigned b; unsigned t; register unsigned u; register unsigned r; char c; int i;
  a = p0; b = p1; t = 0u; u = 1u; r = 2u; c = 0; i = 0;
  if ((((unsigned)(char)p1) + (p1 - p1))) { b = u; } else { u = g[3]; }
  c = (char)(unsigned)i; t = t ^ (unsigned)c;
  b = (((p3 - u) ^ (a ? g[3] : (unsigned)c)) / (((unsigned)((int)(g[a & 15u] & (unsigned)i) < (int)(p0 * g[a & 15u]))) | 1u));
  r = (((t | (unsigned)i) | ((unsigned)(char)2u)) | ((p3 + s.a[1]) ? (255u ^ b) : ((unsigned)(char)g[3])));
  a = ((((unsigned)((int)g[3] >> (int)(p0 & 31u))) ^ (r ^ p1)) ? ((unsigned)((int)(s.a[1] / ((unsigned)i | 1u)) >> (int)((1u - g[a & 15u]) & 31u))) : (((unsigned)c << (g[3] & 31u)) - (g[3] % (s.a[1] | 1u))));
  t = t + f1((b % (p2 | 1u)), (t % (3568821514u | 1u)), p1, 4294967295u, r, (b / (t | 1u)), (u << (p3 & 31u)), ((unsigned)(p1 <= g[a & 15u])));
  return t ^ a ^ b ^ u ^ r;
}
unsigned f3(unsigned p0, register unsigned p1, unsigned p2, unsigned p3, unsigned p4, unsigned p5) {
  unsigned a; unsigned b; unsigned t; register unsigned u; register unsigned r; char c; int i;
  a = p0; b = p1; t = 0u; u = 1u; r = 2u; c = 0; i = 0;
  switch ((int)((s.a[1] % (t | 1u)) & 3u)) { case 0: a = a + 1u; case 1: r = r + (((unsigned)(char)(unsigned)c) % ((p4 << (t & 31u)) | 1u)); break; case 2: b = b ^ t; default: u = u - 1u; }
  t = ((unsigned)i / (((a >> (31u & 31u)) + ((unsigned)(char)p0)) | 1u));
  for (i = 0; i < 2; i++) { a = ((unsigned)((int)((unsigned)(char)u) >> (int)((r % (g[3] | 1u)) & 31u))); t = t + t; }
  switch ((int)((b / (p4 | 1u)) & 3u)) { case 0: a = a + 1u; case 1: r = r + ((unsigned)(char)(p0 >> (p0 & 31u))); break; case 2: b = b ^ t; default: u = u - 1u; }
  switch ((int)((p2 - (unsigned)c) & 3u)) { case 0: a = a + 1u; case 1: r = r + (((unsigned)(char)p1) >> (((unsigned)((int)t >> (int)(p0 & 31u))) & 31u)); break; case 2: b = b ^ t; default: u = u - 1u; }
  r = ((unsigned)((int)(((unsigned)(char)g[a & 15u]) % ((s.a[1] + u) | 1u)) >> (int)(((0u & a) | p1) & 31u)));
  a = ((unsigned)((int)(((unsigned)(char)p5) << (p1 & 31u)) >> (int)(u & 31u)));
  if (((g[a & 15u] / (p4 | 1u)) % (g[a & 15u] | 1u))) { c = (char)((g[a & 15u] + s.a[1]) / ((p5 ? p3 : a) | 1u)); t = t ^ (unsigned)c; } else { u = ((unsigned)((int)u >> (int)(((s.a[1] & 3u) & (t & u)) & 31u))); }
  t = t + f2((255u - g[3]), ((unsigned)c / (p5 | 1u)), u, (s.a[1] + p2));
  return t ^ a ^ b ^ u ^ r;
}
int main(void) { int i; unsigned t; t = 0u; for (i = 0; i < 40; i++) { t = t * 3u + f3((unsigned)i, t, 29u, 77u, 60u, 42u); putchar((int)(t & 63u) + 32); } num(t); return (int)(t & 127u); }
