void num(unsigned n) { if (n >= 10u) num(n / 10u); putchar((int)(n % 10u) + 48); }
void show(int n) { if (n < 0) { putchar('-'); num(-(unsigned)n); } else num((unsigned)n); putchar(10); }
unsigned g[16]; struct m { char c; unsigned a[4]; char d; } s, w;
unsigned f0(unsigned p0, register unsigned p1) {
  unsigned a; unsigned b; unsigned t; register unsigned u; register unsigned r; char c; int i;
  a = p0; b = p1; t = 0u; u = 1u; r = 2u; c = 0; i = 0;
  s.a[((unsigned)((int)b <= (int)u)) & 3u] = (unsigned)i; s.c = (char)t; w = s; t = t + w.a[(255u | r) & 3u] + (unsigned)w.c; s = w;
  g[(t ? 7u : 2147483648u) & 15u] = (((unsigned)((int)((unsigned)(p0 >= p1)) < (int)((unsigned)i + r))) >> ((t << (((unsigned)((int)p1 >> (int)(a & 31u))) & 31u)) & 31u));
  b = u;
  g[(3u / (p0 | 1u)) & 15u] = (((unsigned)((b & g[a & 15u]) && (t & (unsigned)c))) ^ ((a ? u : t) - ((unsigned)(char)r)));
  b = a;
  return t ^ a ^ b ^ u ^ r;
}
unsigned f1(unsigned p0, unsigned p1, unsigned p2) {
  unsigned a; unsigned b; unsigned t; register unsigned u; register unsigned r; char c; int i;
  a = p0; b = p1; t = 0u; u = 1u; r = 2u; c = 0; i = 0;
  if ((((unsigned)(char)b) >> (p2 & 31u))) { g[(r ^ p2) & 15u] = ((unsigned)(((unsigned)((int)((unsigned)i - g[3]) >> (int)((s.a[1] - 3u) & 31u))) == ((unsigned)((int)((unsigned)i << (p0 & 31u)) >> (int)((a << ((unsigned)c & 31u)) & 31u))))); } else { b = (unsigned)c; }
  if (((unsigned)((int)(s.a[1] >> (t & 31u)) < (int)g[a & 15u]))) { r = ((unsigned)(((p0 % (p0 | 1u)) >> (((unsigned)i ^ p1) & 31u)) >= (((unsigned)c / (t | 1u)) >> ((s.a[1] * p0) & 31u)))); } else { b = ((unsigned)i << (((t | u) * (t + (unsigned)i)) & 31u)); }
  if (((b >> (1490684918u & 31u)) ^ (t / (r | 1u)))) { for (i = 0; i < 5; i++) { r = ((g[3] >> (0u & 31u)) % ((p2 / (g[3] | 1u)) | 1u)); t = t + u; } } else { a = ((unsigned)((int)a >> (int)(((unsigned)((g[3] * p0) || ((unsigned)((int)g[a & 15u] >> (int)(r & 31u))))) & 31u))); }
  s.a[(t & a) & 3u] = ((p1 >> (p2 & 31u)) << ((p0 << (p0 & 31u)) & 31u)); s.c = (char)t; w = s; t = t + w.a[(p0 + (unsigned)c) & 3u] + (unsigned)w.c; s = w;
  for (i = 0; i < 5; i++) { a = g[a & 15u]; t = t + a; }
  b = (((g[a & 15u] << (p2 & 31u)) + ((unsigned)((int)p1 >> (int)(r & 31u)))) * ((p0 / (b | 1u)) ^ (g[a & 15u] % (a | 1u))));
  t = t + f0(((unsigned)(p0 == (unsigned)i)), ((unsigned)((int)g[3] == (int)31u)));
  return t ^ a ^ b ^ u ^ r;
}
unsigned f2(unsigned p0, unsigned p1, unsigned p2, unsigned p3, register unsigned p4, unsigned p5) {
  unsigned a; unsigned b; unsigned t; register unsigned u; register unsigned r; char c; int i;
  a = p0; b = p1; t = 0u; u = 1u; r = 2u; c = 0; i = 0;
  for (i = 0; i < 2; i++) { u = (((unsigned)((int)p1 < (int)p4)) << ((g[3] << (t & 31u)) & 31u)); t = t + t; }
  for (i = 0; i < 3; i++) { u = ((p2 + a) + ((unsigned)i ^ t)); t = t + (unsigned)c; }
  g[u & 15u] = ((t / ((s.a[1] - p4) | 1u)) - ((3u * (unsigned)c) - ((unsigned)((int)g[a & 15u] > (int)p3))));
  c = (char)(((unsigned)((int)g[3] >> (int)(g[a & 15u] & 31u))) + (g[a & 15u] * p3)); t = t ^ (unsigned)c;
  for (i = 0; i < 2; i++) { u = (p0 & ((unsigned)((int)2147483648u >> (int)(r & 31u)))); t = t + p4; }
  u = p4;
  b = ((unsigned)(char)((p0 << (t & 31u)) % (((unsigned)c >> (a & 31u)) | 1u)));
  g[p2 & 15u] = ((((unsigned)c * t) + (p4 + p5)) - ((u << (a & 31u)) << ((unsigned)c & 31u)));
  if (((a + p4) & (g[a & 15u] / (p2 | 1u)))) { u = (((unsigned)((s.a[1] * p0) && ((unsigned)(g[3] >= r)))) * ((unsigned)((int)(0u & p1) >> (int)(((unsigned)((int)g[a & 15u] >> (int)((unsigned)c & 31u))) & 31u)))); } else { g[(r + g[3]) & 15u] = (((p3 + r) - (u & (unsigned)i)) / (1u | 1u)); }
  t = t + f1(((unsigned)c % (g[a & 15u] | 1u)), (p3 * r), ((unsigned)((int)p5 >> (int)(p0 & 31u))));
  return t ^ a ^ b ^ u ^ r;
}
unsigned f3(unsigned p0, register unsigned p1, unsigned p2, register unsigned p3, unsigned p4, unsigned p5, unsigned p6, unsigned p7) {
  unsigned a; unsigned b; unsigned t; register unsigned u; register unsigned r; char c; int i;
  a = p0; b = p1; t = 0u; u = 1u; r = 2u; c = 0; i = 0;
  a = (unsigned)c;
  if (((p4 % (g[a & 15u] | 1u)) ? (p2 * a) : ((unsigned)((int)p7 == (int)b)))) { s.a[(p4 >> (p0 & 31u)) & 3u] = ((1u ^ 2147483648u) ^ (a | t)); s.c = (char)t; w = s; t = t + w.a[(1u | 255u) & 3u] + (unsigned)w.c; s = w; } else { s.a[((unsigned)((int)p4 >= (int)s.a[1])) & 3u] = p0; s.c = (char)t; w = s; t = t + w.a[(p7 | p4) & 3u] + (unsigned)w.c; s = w; }
  a = ((unsigned)((int)((unsigned)((t - p2) >= (p7 ^ 713982615u))) != (int)p0));
  r = ((unsigned)((int)((unsigned)((g[a & 15u] | p6) <= (u - p4))) >> (int)(((p0 << (p6 & 31u)) ? ((unsigned)c * (unsigned)c) : (p6 | p4)) & 31u)));
  for (i = 0; i < 5; i++) { a = ((g[3] + b) ^ t); t = t + p2; }
  b = (((unsigned)((int)(u * t) >> (int)((t * p0) & 31u))) / (((t | (unsigned)i) * (p6 + p5)) | 1u));
  c = (char)((a >> (t & 31u)) - ((unsigned)((int)p1 >> (int)(p7 & 31u)))); t = t ^ (unsigned)c;
  t = t + f2(((unsigned)(s.a[1] < t)), ((unsigned)((int)r >> (int)(p5 & 31u))), (b | g[a & 15u]), (p0 ^ g[a & 15u]), (p6 & p7), ((unsigned)((int)r <= (int)p1)));
  return t ^ a ^ b ^ u ^ r;
}
int main(void) { int i; unsigned t; t = 0u; for (i = 0; i < 40; i++) { t = t * 3u + f3((unsigned)i, t, 88u, 22u, 36u, 6u, 76u, 69u); putchar((int)(t & 63u) + 32); } num(t); return (int)(t & 127u); }
