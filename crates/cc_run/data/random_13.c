void num(unsigned n) { if (n >= 10u) num(n / 10u); putchar((int)(n % 10u) + 48); }
void show(int n) { if (n < 0) { putchar('-'); num(-(unsigned)n); } else num((unsigned)n); putchar(10); }
unsigned g[16]; struct m { char c; unsigned a[4]; char d; } s, w;
unsigned f0(register unsigned p0, register unsigned p1, unsigned p2, register unsigned p3) {
  unsigned a; unsigned b; unsigned t; unsigned u; register unsigned r; char c; int i;
  a = p0; b = p1; t = 0u; u = 1u; r = 2u; c = 0; i = 0;
  b = (t - ((p3 & (unsigned)c) | ((unsigned)(b || p0))));
  if (((unsigned)((int)((unsigned)(char)(unsigned)c) >> (int)(((unsigned)(char)255u) & 31u)))) { switch ((int)(((unsigned)(char)p1) & 3u)) { case 0: a = a + 1u; case 1: r = r + ((unsigned)((int)(a ^ (unsigned)c) >> (int)((p2 ^ g[a & 15u]) & 31u))); break; case 2: b = b ^ t; default: u = u - 1u; } } else { s.a[(p0 & b) & 3u] = ((g[3] - g[3]) % (((unsigned)c ? g[a & 15u] : r) | 1u)); s.c = (char)t; w = s; t = t + w.a[(u / (a | 1u)) & 3u] + (unsigned)w.c; s = w; }
  for (i = 0; i < 5; i++) { r = 2147483648u; t = t + a; }
  if ((((unsigned)(char)(unsigned)i) ? ((unsigned)((int)(unsigned)i <= (int)b)) : (g[a & 15u] + t))) { r = ((g[3] * ((unsigned)c | t)) ^ (b << ((p1 ^ (unsigned)c) & 31u))); } else { if ((s.a[1] * (r - u))) { b = (p1 ? (((unsigned)(char)2147483648u) & 1u) : (((unsigned)(t && a)) | ((unsigned)c % ((unsigned)i | 1u)))); } else { a = (((unsigned)((int)((unsigned)((int)r >> (int)(p1 & 31u))) >> (int)(b & 31u))) | p1); } }
  u = ((unsigned)((int)((r ? r : (unsigned)i) ? ((unsigned)(r >= b)) : ((unsigned)((int)65535u >= (int)p1))) > (int)p0));
  r = (((g[a & 15u] ^ p2) | (t + (unsigned)c)) + (g[a & 15u] - (r % (b | 1u))));
  t = r;
  a = (p1 * ((255u / (g[3] | 1u)) ? ((unsigned)((int)b >> (int)(s.a[1] & 31u))) : p0));
  for (i = 0; i < 3; i++) { a = (unsigned)i; t = t + u; }
  r = (((unsigned)((int)((unsigned)((unsigned)i < p3)) <= (int)((unsigned)(char)u))) + ((t + g[a & 15u]) ^ (2147483648u / (a | 1u))));
  return t ^ a ^ b ^ u ^ r;
}
unsigned f1(register unsigned p0, register unsigned p1, register unsigned p2, register unsigned p3, unsigned p4) {
  unsigned a; unsigned b; unsigned t; register unsigned u; register unsigned r; char c; int i;
  a = p0; b = p1; t = 0u; u = 1u; r = 2u; c = 0; i = 0;
  s.a[1u & 3u] = ((unsigned)(char)g[3]); s.c = (char)t; w = s; t = t + w.a[(4128944382u ? a : 2u) & 3u] + (unsigned)w.c; s = w;
  r = ((g[3] & (g[a & 15u] - p0)) ^ ((p3 / (p3 | 1u)) ^ (u << (s.a[1] & 31u))));
  t = (unsigned)i;
  s.a[(s.a[1] * p2) & 3u] = t; s.c = (char)t; w = s; t = t + w.a[(g[3] & a) & 3u] + (unsigned)w.c; s = w;
  s.a[(p3 >> (g[a & 15u] & 31u)) & 3u] = ((unsigned)c * (3u << (p2 & 31u))); s.c = (char)t; w = s; t = t + w.a[3u & 3u] + (unsigned)w.c; s = w;
  a = (((7u + p3) << ((r - 7u) & 31u)) * s.a[1]);
  for (i = 0; i < 5; i++) { u = s.a[1]; t = t + t; }
  u = ((unsigned)(char)((s.a[1] - 1u) >> (g[a & 15u] & 31u)));
  t = ((unsigned)((int)((p0 ^ p3) & (u & p2)) <= (int)((p4 & (unsigned)c) | (t * (unsigned)i))));
  u = p3;
  for (i = 0; i < 5; i++) { a = u; t = t + g[a & 15u]; }
  t = t + f0((p3 | p3), ((unsigned)((int)t < (int)g[a & 15u])), (p4 | g[a & 15u]), ((unsigned)(char)p0));
  return t ^ a ^ b ^ u ^ r;
}
unsigned f2(unsigned p0, register unsigned p1, unsigned p2) {
  unsigned a; unsigned b; unsigned t; register unsigned u; register unsigned r; char c; int i;
  a = p0; b = p1; t = 0u; u = 1u; r = 2u; c = 0; i = 0;
  g[((unsigned)i * 7u) & 15u] = a;
  if ((s.a[1] * (t * t))) { r = ((unsigned)(char)a); } else { c = (char)((unsigned)c + ((unsigned)c ? b : p0)); t = t ^ (unsigned)c; }
  t = (((unsigned)((int)((unsigned)(b && 4294967295u)) != (int)t)) << ((((unsigned)(char)(unsigned)c) ^ ((unsigned)(t && (unsigned)c))) & 31u));
  g[((unsigned)c | g[a & 15u]) & 15u] = (((unsigned)i * (u ? b : g[3])) & ((g[3] / ((unsigned)i | 1u)) >> ((p2 | b) & 31u)));
  a = ((((unsigned)c - t) ? (s.a[1] * (unsigned)i) : s.a[1]) - ((3u ? s.a[1] : b) - (a + a)));
  u = p1;
  u = (((s.a[1] + s.a[1]) >> ((p0 * t) & 31u)) & (((unsigned)((int)b >> (int)(b & 31u))) ^ (s.a[1] & a)));
  switch ((int)((p1 / (t | 1u)) & 3u)) { case 0: a = a + 1u; case 1: r = r + ((unsigned)((int)((unsigned)i / (p0 | 1u)) >> (int)(((unsigned)i & (unsigned)i) & 31u))); break; case 2: b = b ^ t; default: u = u - 1u; }
  t = t + f1(((unsigned)c << (7u & 31u)), (a + (unsigned)i), (u & a), (u ? u : p2), ((unsigned)i >> (r & 31u)));
  return t ^ a ^ b ^ u ^ r;
}
int main(void) { int i; unsigned t; t = 0u; for (i = 0; i < 40; i++) { t = t * 3u + f2((unsigned)i, t, 71u); putchar((int)(t & 63u) + 32); } num(t); return (int)(t & 127u); }
