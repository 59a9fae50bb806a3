void num(unsigned n) { if (n >= 10u) num(n / 10u); putchar((int)(n % 10u) + 48); }
void show(int n) { if (n < 0) { putchar('-'); num(-(unsigned)n); } else num((unsigned)n); putchar(10); }
unsigned g[16]; struct m { char c; unsigned a[4]; char d; } s, w;
unsigned f0(unsigned p0, unsigned p1, unsigned p2, unsigned p3, register unsigned p4) {
  unsigned a; unsigned b; unsigned t; register unsigned u; register unsigned r; char c; int i;
  a = p0; b = p1; t = 0u; u = 1u; r = 2u; c = 0; i = 0;
  b = ((unsigned)((((unsigned)((int)g[a & 15u] != (int)u)) >> ((4294967295u << (p3 & 31u)) & 31u)) == (p1 >> ((u + p1) & 31u))));
  t = ((((unsigned)i >> (p1 & 31u)) << (b & 31u)) * ((u ? 255u : (unsigned)i) << ((p0 ^ t) & 31u)));
  if (((unsigned)((int)((unsigned)i ^ b) >= (int)((unsigned)((int)p3 > (int)g[a & 15u]))))) { for (i = 0; i < 3; i++) { u = ((unsigned)(g[3] != (g[3] / (p3 | 1u)))); t = t + s.a[1]; } } else { r = g[3]; }
  switch ((int)(((unsigned)c * p4) & 3u)) { case 0: a = a + 1u; case 1: r = r + (1u & (a << (a & 31u))); break; case 2: b = b ^ t; default: u = u - 1u; }
  u = ((((unsigned)((int)p0 >> (int)((unsigned)c & 31u))) % ((s.a[1] + p4) | 1u)) | ((p1 << (r & 31u)) | (p2 - r)));
  return t ^ a ^ b ^ u ^ r;
}
unsigned f1(unsigned p0, unsigned p1, unsigned p2, unsigned p3) {
  unsigned a; unsigned b; unsigned t; unsigned u; register unsigned r; char c; int i;
  a = p0; b = p1; t = 0u; u = 1u; r = 2u; c = 0; i = 0;
  b = (((unsigned)(char)((unsigned)i + p0)) >> (t & 31u));
  t = ((((unsigned)i % (g[a & 15u] | 1u)) | (u | a)) >> ((unsigned)c & 31u));
  if (((unsigned)(char)(u ^ p2))) { b = ((unsigned)((((unsigned)((int)g[3] > (int)p3)) / ((u ? s.a[1] : a) | 1u)) == (a ^ a))); } else { s.a[(r | u) & 3u] = s.a[1]; s.c = (char)t; w = s; t = t + w.a[(b ? p2 : (unsigned)i) & 3u] + (unsigned)w.c; s = w; }
  s.a[(p0 - p0) & 3u] = ((unsigned)(char)b); s.c = (char)t; w = s; t = t + w.a[((unsigned)(p0 != (unsigned)i)) & 3u] + (unsigned)w.c; s = w;
  switch ((int)(((unsigned)i + (unsigned)c) & 3u)) { case 0: a = a + 1u; case 1: r = r + ((a - p0) & ((unsigned)(p3 && s.a[1]))); break; case 2: b = b ^ t; default: u = u - 1u; }
  if (((unsigned)((int)(p0 / (p2 | 1u)) == (int)(s.a[1] & g[3])))) { b = (g[a & 15u] / ((g[3] ^ (a - (unsigned)i)) | 1u)); } else { switch ((int)((g[a & 15u] - r) & 3u)) { case 0: a = a + 1u; case 1: r = r + (((unsigned)(char)u) + ((unsigned)(char)b)); break; case 2: b = b ^ t; default: u = u - 1u; } }
  t = t + f0(((unsigned)i % (p2 | 1u)), (a * u), ((unsigned)c / (65535u | 1u)), ((unsigned)(char)(unsigned)i), ((unsigned)c & p2));
  return t ^ a ^ b ^ u ^ r;
}
unsigned f2(unsigned p0, unsigned p1, unsigned p2, unsigned p3, unsigned p4, register unsigned p5, unsigned p6) {
  unsigned a; unsigned b; unsigned t; register unsigned u; register unsigned r; char c; int i;
  a = p0; b = p1; t = 0u; u = 1u; r = 2u; c = 0; i = 0;
  switch ((int)(((unsigned)(char)p3) & 3u)) { case 0: a = a + 1u; case 1: r = r + ((a >> (u & 31u)) + (p5 & s.a[1])); break; case 2: b = b ^ t; default: u = u - 1u; }
  g[(s.a[1] | (unsigned)c) & 15u] = ((unsigned)(char)t);
  g[(2147483648u % ((unsigned)i | 1u)) & 15u] = ((unsigned)((int)p4 >> (int)(p1 & 31u)));
  b = ((((unsigned)((int)(unsigned)i >> (int)(r & 31u))) * (g[3] - g[a & 15u])) % (((g[3] ^ p2) << (((unsigned)(a >= p0)) & 31u)) | 1u));
  r = ((unsigned)((int)((p1 ^ t) & (g[a & 15u] << ((unsigned)i & 31u))) > (int)(((unsigned)((int)a != (int)p1)) << ((p6 << (g[3] & 31u)) & 31u))));
  r = ((unsigned)(((b ? g[3] : u) * (g[a & 15u] ^ t)) > ((unsigned)(((unsigned)((int)r >> (int)(b & 31u))) < b))));
  for (i = 0; i < 5; i++) { b = ((unsigned)((int)(p6 - p0) >> (int)(p6 & 31u))); t = t + b; }
  t = t + f1((s.a[1] / (a | 1u)), (g[a & 15u] & r), (p5 - p4), u);
  return t ^ a ^ b ^ u ^ r;
}
unsigned f3(unsigned p0, unsigned p1, register unsigned p2, register unsigned p3, register unsigned p4, register unsigned p5, unsigned p6) {
  unsigned a; unsigned b; unsigned t; register unsigned u; register unsigned r; char c; int i;
  a = p0; b = p1; t = 0u; u = 1u; r = 2u; c = 0; i = 0;
  b = (((b + (unsigned)i) + (7u % (g[3] | 1u))) & (p3 ? (t + (unsigned)c) : p0));
  if (p6) { for (i = 0; i < 3; i++) { b = ((r ^ g[a & 15u]) ^ ((unsigned)((int)a <= (int)65535u))); t = t + p2; } } else { switch ((int)(p0 & 3u)) { case 0: a = a + 1u; case 1: r = r + ((p3 - p2) << ((p0 / (p4 | 1u)) & 31u)); break; case 2: b = b ^ t; default: u = u - 1u; } }
  g[g[3] & 15u] = ((((unsigned)(char)p2) >> (((unsigned)(p2 >= (unsigned)c)) & 31u)) << (((unsigned)((int)(g[a & 15u] ^ a) >> (int)((r >> (p4 & 31u)) & 31u))) & 31u));
  for (i = 0; i < 4; i++) { r = ((p1 * p2) * (p1 % ((unsigned)i | 1u))); t = t + u; }
  t = (a - ((p3 % (p2 | 1u)) / ((p5 ^ p4) | 1u)));
  t = t + f2((g[a & 15u] >> (s.a[1] & 31u)), ((unsigned)(s.a[1] < p5)), (p4 ^ s.a[1]), (p3 << (p3 & 31u)), (s.a[1] * p6), ((unsigned)(b >= s.a[1])), 0u);
  return t ^ a ^ b ^ u ^ r;
}
int main(void) { int i; unsigned t; t = 0u; for (i = 0; i < 40; i++) { t = t * 3u + f3((unsigned)i, t, 61u, 52u, 1u, 49u, 32u); putchar((int)(t & 63u) + 32); } num(t); return (int)(t & 127u); }
