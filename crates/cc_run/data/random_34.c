void num(unsigned n) { if (n >= 10u) num(n / 10u); putchar((int)(n % 10u) + 48); }
void show(int n) { if (n < 0) { putchar('-'); num(-(unsigned)n); } else num((unsigned)n); putchar(10); }
unsigned g[16]; struct m { char c; unsigned a[4]; char d; } s, w;
unsigned f0(register unsigned p0, unsigned p1, unsigned p2, unsigned p3) {
  unsigned a; unsigned b; unsigned t; register unsigned u; register unsigned r; char c; int i;
  a = p0; b = p1; t = 0u; u = 1u; r = 2u; c = 0; i = 0;
  u = (g[3] >> (((r - g[3]) | (p1 + p0)) & 31u));
  u = ((((unsigned)((int)p3 >= (int)p1)) * ((unsigned)(char)r)) - 255u);
  c = (char)(((unsigned)((int)b >> (int)(g[a & 15u] & 31u))) << ((s.a[1] * p0) & 31u)); t = t ^ (unsigned)c;
  s.a[((unsigned)i - p1) & 3u] = (((unsigned)((int)s.a[1] >> (int)(p1 & 31u))) & ((unsigned)(char)(unsigned)c)); s.c = (char)t; w = s; t = t + w.a[(u << (p0 & 31u)) & 3u] + (unsigned)w.c; s = w;
  if (((b & p2) - (r << (r & 31u)))) { c = (char)(p3 & ((unsigned)((int)r >= (int)p2))); t = t ^ (unsigned)c; } else { u = ((((unsigned)(p2 >= 2u)) | (949783737u * u)) << (((unsigned)(char)((unsigned)c << (s.a[1] & 31u))) & 31u)); }
  s.a[(p3 % ((unsigned)c | 1u)) & 3u] = (((unsigned)((int)p3 != (int)(unsigned)c)) ^ ((unsigned)c ^ a)); s.c = (char)t; w = s; t = t + w.a[p3 & 3u] + (unsigned)w.c; s = w;
  if ((unsigned)i) { g[(u * 255u) & 15u] = (s.a[1] * ((p1 + p1) ^ ((unsigned)(p2 || p0)))); } else { s.a[(s.a[1] / ((unsigned)i | 1u)) & 3u] = ((p1 * p1) / (b | 1u)); s.c = (char)t; w = s; t = t + w.a[(p2 >> (a & 31u)) & 3u] + (unsigned)w.c; s = w; }
  return t ^ a ^ b ^ u ^ r;
}
unsigned f1(unsigned p0, unsigned p1, register unsigned p2, register unsigned p3) {
  unsigned a; unsigned b; unsigned t; register unsigned u; register unsigned r; char c; int i;
  a = p0; b = p1; t = 0u; u = 1u; r = 2u; c = 0; i = 0;
  c = (char)(((unsigned)((int)t >> (int)(p0 & 31u))) ? (g[3] << (p3 & 31u)) : ((unsigned)((int)t >> (int)(1u & 31u)))); t = t ^ (unsigned)c;
  switch ((int)((r % ((unsigned)c | 1u)) & 3u)) { case 0: a = a + 1u; case 1: r = r + ((255u / (b | 1u)) - ((unsigned)c ^ 7031811u)); break; case 2: b = b ^ t; default: u = u - 1u; }
  switch ((int)((r & g[a & 15u]) & 3u)) { case 0: a = a + 1u; case 1: r = r + ((u * s.a[1]) << (((unsigned)i * b) & 31u)); break; case 2: b = b ^ t; default: u = u - 1u; }
  switch ((int)(((unsigned)i + s.a[1]) & 3u)) { case 0: a = a + 1u; case 1: r = r + ((g[3] >> (p1 & 31u)) | (t & (unsigned)c)); break; case 2: b = b ^ t; default: u = u - 1u; }
  if (((p0 * (unsigned)i) ? ((unsigned)((int)p1 != (int)(unsigned)i)) : (p0 >> (t & 31u)))) { for (i = 0; i < 3; i++) { r = ((s.a[1] << (r & 31u)) / ((p2 / (p0 | 1u)) | 1u)); t = t + p0; } } else { switch ((int)((p1 >> (g[3] & 31u)) & 3u)) { case 0: a = a + 1u; case 1: r = r + ((unsigned)((p0 ? r : g[3]) || t)); break; case 2: b = b ^ t; default: u = u - 1u; } }
  t = t + f0((a + t), (p3 | (unsigned)i), (a | p0), p1);
  return t ^ a ^ b ^ u ^ r;
}
unsigned f2(unsigned p0, unsigned p1, unsigned p2, register unsigned p3, unsigned p4, unsigned p5, unsigned p6, register unsigned p7) {
  unsigned a; unsigned b; unsigned t; unsigned u; register unsigned r; char c; int i;
  a = p0; b = p1; t = 0u; u = 1u; r = 2u; c = 0; i = 0;
  a = ((unsigned)(((b * g[a & 15u]) >> ((p2 - b) & 31u)) < ((p3 | p2) * (u % ((unsigned)i | 1u)))));
  for (i = 0; i < 5; i++) { r = ((unsigned)((int)(u | g[3]) < (int)(p6 - g[a & 15u]))); t = t + p7; }
  b = (unsigned)i;
  for (i = 0; i < 5; i++) { b = p6; t = t + p1; }
  r = ((unsigned)(char)((a << ((unsigned)i & 31u)) / ((t ? p7 : (unsigned)c) | 1u)));
  g[31u & 15u] = (((unsigned)((int)g[3] >> (int)((p5 - u) & 31u))) | (u * (p7 / ((unsigned)i | 1u))));
  r = ((p6 + ((unsigned)i * b)) + (unsigned)c);
  s.a[(g[a & 15u] ? p3 : p4) & 3u] = ((unsigned)(((unsigned)i / (p0 | 1u)) <= ((unsigned)((int)p6 >> (int)(31u & 31u))))); s.c = (char)t; w = s; t = t + w.a[(p5 ? (unsigned)i : p7) & 3u] + (unsigned)w.c; s = w;
  if (((unsigned)((int)(255u / (p1 | 1u)) == (int)((unsigned)((int)u > (int)g[a & 15u]))))) { switch ((int)((p6 ^ p1) & 3u)) { case 0: a = a + 1u; case 1: r = r + ((g[a & 15u] << (p4 & 31u)) % (((unsigned)i & p6) | 1u)); break; case 2: b = b ^ t; default: u = u - 1u; } } else { u = (((g[3] * p1) >> ((p2 << (a & 31u)) & 31u)) * ((unsigned)((int)(p0 | t) < (int)((unsigned)(char)p3)))); }
  t = t + f1(((unsigned)((int)p4 >> (int)(p4 & 31u))), (p3 / (t | 1u)), ((unsigned)(char)p6), g[3]);
  return t ^ a ^ b ^ u ^ r;
}
unsigned f3(register unsigned p0, unsigned p1, register unsigned p2, unsigned p3, register unsigned p4, unsigned p5, unsigned p6) {
  unsigned a; unsigned b; unsigned t; unsigned u; register unsigned r; char c; int i;
  a = p0; b = p1; t = 0u; u = 1u; r = 2u; c = 0; i = 0;
  for (i = 0; i < 3; i++) { u = ((p5 << (u & 31u)) & ((unsigned)((int)g[3] > (int)g[a & 15u]))); t = t + p4; }
  s.a[((unsigned)(char)(unsigned)i) & 3u] = ((unsigned)((int)p4 != (int)p2)); s.c = (char)t; w = s; t = t + w.a[((unsigned)(char)u) & 3u] + (unsigned)w.c; s = w;
  t = g[3];
  t = (((a | (unsigned)c) & (p1 >> (t & 31u))) / (((p1 + p1) + (g[a & 15u] & g[3])) | 1u));
  b = (((unsigned)((int)((unsigned)((int)p0 == (int)s.a[1])) >= (int)(p1 | p6))) << ((((unsigned)(char)g[3]) ? (g[a & 15u] - (unsigned)i) : (p5 & g[3])) & 31u));
  s.a[(g[3] << (p3 & 31u)) & 3u] = ((unsigned)(s.a[1] == ((unsigned)((unsigned)i == b)))); s.c = (char)t; w = s; t = t + w.a[((unsigned)((int)u >> (int)(g[a & 15u] & 31u))) & 3u] + (unsigned)w.c; s = w;
  t = (unsigned)c;
  t = p3;
  switch ((int)(((unsigned)((int)p2 >> (int)((unsigned)i & 31u))) & 3u)) { case 0: a = a + 1u; case 1: r = r + (((unsigned)((int)p3 >= (int)p3)) * 255u); break; case 2: b = b ^ t; default: u = u - 1u; }
  t = t + f2(((unsigned)i ^ b), (b - t), (a * p3), (p0 ? b : g[a & 15u]), p0, (u ? b : s.a[1]), ((unsigned)(2147483648u < 65535u)), ((unsigned)((int)(unsigned)i != (int)p4)));
  return t ^ a ^ b ^ u ^ r;
}
int main(void) { int i; unsigned t; t = 0u; for (i = 0; i < 40; i++) { t = t * 3u + f3((unsigned)i, t, 24u, 7u, 79u, 20u, 5u); putchar((int)(t & 63u) + 32); } num(t); return (int)(t & 127u); }
