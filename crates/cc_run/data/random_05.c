void num(unsigned n) { if (n >= 10u) num(n / 10u); putchar((int)(n % 10u) + 48); }
void show(int n) { if (n < 0) { putchar('-'); num(-(unsigned)n); } else num((unsigned)n); putchar(10); }
unsigned g[16]; struct m { char c; unsigned a[4]; char d; } s, w;
unsigned f0(register unsigned p0, unsigned p1, register unsigned p2, register unsigned p3) {
  unsigned a; unsigned b; unsigned t; unsigned u; register unsigned r; char c; int i;
  a = p0; b = p1; t = 0u; u = 1u; r = 2u; c = 0; i = 0;
  switch ((int)((b / (g[a & 15u] | 1u)) & 3u)) { case 0: a = a + 1u; case 1: r = r + (t / (((unsigned)((int)(unsigned)c < (int)t)) | 1u)); break; case 2: b = b ^ t; default: u = u - 1u; }
  b = (((3u & g[3]) << ((r ^ p0) & 31u)) & ((s.a[1] << (r & 31u)) << ((p2 + (unsigned)c) & 31u)));
  b = (g[3] - ((b * (unsigned)c) % ((g[3] >> (p0 & 31u)) | 1u)));
  if (((p1 ^ s.a[1]) - (g[3] | p1))) { c = (char)a; t = t ^ (unsigned)c; } else { c = (char)((unsigned)(char)(r - 255u)); t = t ^ (unsigned)c; }
  u = ((unsigned)((int)p1 >> (int)(((g[3] - t) ? ((unsigned)i << (p0 & 31u)) : (r << (g[3] & 31u))) & 31u)));
  for (i = 0; i < 5; i++) { u = ((unsigned)(((unsigned)(t <= p0)) >= (0u & t))); t = t + (unsigned)i; }
  u = ((unsigned)((int)((g[a & 15u] / (p3 | 1u)) | r) == (int)((p0 - t) << (((unsigned)c ? (unsigned)c : a) & 31u))));
  s.a[u & 3u] = ((unsigned)i ? ((unsigned)((int)s.a[1] <= (int)g[3])) : (b << (r & 31u))); s.c = (char)t; w = s; t = t + w.a[(u / (p1 | 1u)) & 3u] + (unsigned)w.c; s = w;
  if (((g[a & 15u] ^ p0) ? ((unsigned)i ^ r) : ((unsigned)(char)p1))) { g[((unsigned)(char)p1) & 15u] = ((unsigned)c ? ((p0 ? t : r) + (g[a & 15u] >> (b & 31u))) : ((t | b) - (r | 255u))); } else { switch ((int)(((unsigned)((int)p1 >> (int)(p0 & 31u))) & 3u)) { case 0: a = a + 1u; case 1: r = r + ((u / (t | 1u)) << (((unsigned)((int)p1 >> (int)(p0 & 31u))) & 31u)); break; case 2: b = b ^ t; default: u = u - 1u; } }
  a = ((unsigned)(char)((unsigned)(char)(p1 >> (g[a & 15u] & 31u))));
  a = s.a[1];
  return t ^ a ^ b ^ u ^ r;
}
unsigned f1(register unsigned p0, unsigned p1, unsigned p2, unsigned p3, unsigned p4) {
  unsigned a; unsigned b; unsigned t; register unsigned u; register unsigned r; char c; int i;
  a = p0; b = p1; t = 0u; u = 1u; r = 2u; c = 0; i = 0;
  c = (char)((unsigned)(char)p2); t = t ^ (unsigned)c;
  for (i = 0; i < 4; i++) { a = ((unsigned)(char)(p4 - b)); t = t + t; }
  switch ((int)((s.a[1] & a) & 3u)) { case 0: a = a + 1u; case 1: r = r + b; break; case 2: b = b ^ t; default: u = u - 1u; }
  s.a[((unsigned)((int)s.a[1] >> (int)(b & 31u))) & 3u] = ((p4 - p2) - (t ^ t)); s.c = (char)t; w = s; t = t + w.a[((unsigned)(char)p3) & 3u] + (unsigned)w.c; s = w;
  switch ((int)(((unsigned)c / (p2 | 1u)) & 3u)) { case 0: a = a + 1u; case 1: r = r + ((u ? 0u : g[a & 15u]) * a); break; case 2: b = b ^ t; default: u = u - 1u; }
  r = p2;
  s.a[r & 3u] = ((b * p3) >> ((g[a & 15u] | g[3]) & 31u)); s.c = (char)t; w = s; t = t + w.a[(g[3] + p3) & 3u] + (unsigned)w.c; s = w;
  for (i = 0; i < 4; i++) { r = ((unsigned)(char)(g[3] + a)); t = t + u; }
  a = (((unsigned)((int)((unsigned)c ^ s.a[1]) >> (int)((p1 & 3u) & 31u))) / ((unsigned)c | 1u));
  t = t + f0((65535u ^ p2), a, ((unsigned)((int)p2 != (int)a)), (a * a));
  return t ^ a ^ b ^ u ^ r;
}
unsigned f2(unsigned p0, unsigned p1, unsigned p2, unsigned p3, register unsigned p4, unsigned p5, unsigned p6) {
  unsigned a; unsigned b; unsigned t; unsigned u; register unsigned r; char c; int i;
  a = p0; b = p1; t = 0u; u = 1u; r = 2u; c = 0; i = 0;
  s.a[31u & 3u] = (((unsigned)((int)p0 != (int)1u)) - ((unsigned)((int)(unsigned)c >> (int)(t & 31u)))); s.c = (char)t; w = s; t = t + w.a[t & 3u] + (unsigned)w.c; s = w;
  s.a[((unsigned)(p6 > (unsigned)i)) & 3u] = ((7u | p0) >> (r & 31u)); s.c = (char)t; w = s; t = t + w.a[(p2 + g[3]) & 3u] + (unsigned)w.c; s = w;
  t = (((unsigned)(char)(t - p1)) - ((p6 << (p3 & 31u)) ? (a >> (p2 & 31u)) : t));
  if ((p5 * (p4 - a))) { a = ((unsigned)(char)(a | (p5 & g[3]))); } else { a = ((unsigned)(char)p3); }
  for (i = 0; i < 4; i++) { b = (((unsigned)c * r) ^ p5); t = t + b; }
  a = ((unsigned)(((p1 & (unsigned)c) / ((p2 | g[3]) | 1u)) >= ((p2 & p1) | a)));
  switch ((int)(p0 & 3u)) { case 0: a = a + 1u; case 1: r = r + ((unsigned)((int)(r % ((unsigned)i | 1u)) >> (int)((s.a[1] % (p4 | 1u)) & 31u))); break; case 2: b = b ^ t; default: u = u - 1u; }
  r = u;
  t = t + f1(p3, s.a[1], (t ^ (unsigned)c), ((unsigned)c + (unsigned)c), (p2 >> (g[a & 15u] & 31u)));
  return t ^ a ^ b ^ u ^ r;
}
unsigned f3(unsigned p0, unsigned p1, unsigned p2, unsigned p3, register unsigned p4) {
  unsigned a; unsigned b; unsigned t; register unsigned u; register unsigned r; char c; int i;
  a = p0; b = p1; t = 0u; u = 1u; r = 2u; c = 0; i = 0;
  s.a[(g[3] & r) & 3u] = ((u + g[3]) ? (g[3] | (unsigned)c) : (unsigned)i); s.c = (char)t; w = s; t = t + w.a[((unsigned)((int)p3 < (int)(unsigned)c)) & 3u] + (unsigned)w.c; s = w;
  if (((unsigned)(((unsigned)(t > p3)) > ((unsigned)c * p0)))) { switch ((int)((u * u) & 3u)) { case 0: a = a + 1u; case 1: r = r + ((unsigned)(char)((unsigned)(r > p0))); break; case 2: b = b ^ t; default: u = u - 1u; } } else { if ((((unsigned)((int)g[a & 15u] > (int)s.a[1])) % ((p4 | (unsigned)c) | 1u))) { t = (((g[a & 15u] ? r : p3) ^ ((unsigned)c * p4)) - ((p1 & a) >> ((p2 ^ p3) & 31u))); } else { a = (((unsigned)((int)(p4 << (a & 31u)) >> (int)(g[a & 15u] & 31u))) / ((((unsigned)(char)t) + g[a & 15u]) | 1u)); } }
  for (i = 0; i < 3; i++) { a = (((unsigned)((int)b > (int)p2)) + (g[a & 15u] & r)); t = t + r; }
  switch ((int)((s.a[1] ^ p4) & 3u)) { case 0: a = a + 1u; case 1: r = r + ((u - (unsigned)c) >> (t & 31u)); break; case 2: b = b ^ t; default: u = u - 1u; }
  switch ((int)((p1 * p4) & 3u)) { case 0: a = a + 1u; case 1: r = r + ((unsigned)(((unsigned)(s.a[1] || t)) == (p3 >> (b & 31u)))); break; case 2: b = b ^ t; default: u = u - 1u; }
  r = ((unsigned)c * ((t * p2) % ((p0 & u) | 1u)));
  u = ((unsigned)(char)((p1 << (g[a & 15u] & 31u)) * ((unsigned)((int)r <= (int)b))));
  switch ((int)((t * p1) & 3u)) { case 0: a = a + 1u; case 1: r = r + (((unsigned)(char)r) * ((unsigned)((unsigned)i > p4))); break; case 2: b = b ^ t; default: u = u - 1u; }
  t = t + f2((p2 + (unsigned)c), ((unsigned)((int)g[a & 15u] >> (int)(7u & 31u))), (p0 + a), (s.a[1] ^ u), ((unsigned)((int)p3 >> (int)(p2 & 31u))), (7u ? 7u : g[a & 15u]), r);
  return t ^ a ^ b ^ u ^ r;
}
int main(void) { int i; unsigned t; t = 0u; for (i = 0; i < 40; i++) { t = t * 3u + f3((unsigned)i, t, 15u, 94u, 10u); putchar((int)(t & 63u) + 32); } num(t); return (int)(t & 127u); }
