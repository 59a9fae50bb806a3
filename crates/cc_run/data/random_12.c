void num(unsigned n) { if (n >= 10u) num(n / 10u); putchar((int)(n % 10u) + 48); }
void show(int n) { if (n < 0) { putchar('-'); num(-(unsigned)n); } else num((unsigned)n); putchar(10); }
unsigned g[16]; struct m { char c; unsigned a[4]; char d; } s, w;
unsigned f0(register unsigned p0, register unsigned p1, register unsigned p2, unsigned p3) {
  unsigned a; unsigned b; unsigned t; unsigned u; register unsigned r; char c; int i;
  a = p0; b = p1; t = 0u; u = 1u; r = 2u; c = 0; i = 0;
  t = ((unsigned)(char)((t - p3) / (0u | 1u)));
  switch ((int)((unsigned)c & 3u)) { case 0: a = a + 1u; case 1: r = r + ((a & p0) ? ((unsigned)((int)p1 != (int)p3)) : (g[3] << ((unsigned)c & 31u))); break; case 2: b = b ^ t; default: u = u - 1u; }
  u = (((s.a[1] % (g[3] | 1u)) / ((7u ? t : u) | 1u)) | (((unsigned)c ^ 31u) >> ((g[3] * s.a[1]) & 31u)));
  t = ((unsigned)(char)((4294967295u % (u | 1u)) ^ (p0 ? (unsigned)c : g[a & 15u])));
  g[(g[3] ? (unsigned)c : g[3]) & 15u] = p2;
  c = (char)(((unsigned)(char)p0) * (g[3] & p1)); t = t ^ (unsigned)c;
  g[((unsigned)i ^ (unsigned)i) & 15u] = ((unsigned)(char)((p0 / (g[3] | 1u)) * ((unsigned)((int)t >> (int)(t & 31u)))));
  for (i = 0; i < 5; i++) { r = ((unsigned)((int)((unsigned)i ^ p3) < (int)((unsigned)((int)p3 >> (int)(p1 & 31u))))); t = t + (unsigned)i; }
  return t ^ a ^ b ^ u ^ r;
}
unsigned f1(unsigned p0, unsigned p1, unsigned p2, unsigned p3) {
  unsigned a; unsigned b; unsigned t; unsigned u; register unsigned r; char c; int i;
  a = p0; b = p1; t = 0u; u = 1u; r = 2u; c = 0; i = 0;
  if (((s.a[1] | b) & p0)) { c = (char)((p1 % (g[a & 15u] | 1u)) + ((unsigned)((int)g[3] >> (int)(g[a & 15u] & 31u)))); t = t ^ (unsigned)c; } else { a = (g[a & 15u] & (((unsigned)((int)p2 >= (int)b)) >> ((b % (p3 | 1u)) & 31u))); }
  for (i = 0; i < 4; i++) { r = ((g[3] % ((unsigned)c | 1u)) ? ((unsigned)((int)g[a & 15u] >> (int)(p0 & 31u))) : (b % ((unsigned)i | 1u))); t = t + g[a & 15u]; }
  g[((unsigned)((int)r >> (int)(p0 & 31u))) & 15u] = (((p2 * u) * u) >> (((p1 ? 2u : s.a[1]) - (p0 * g[a & 15u])) & 31u));
  a = (((g[3] + g[a & 15u]) << (r & 31u)) << ((b | (p3 - t)) & 31u));
  b = ((unsigned)(char)r);
  c = (char)255u; t = t ^ (unsigned)c;
  t = t + f0(g[a & 15u], ((unsigned)((int)p0 < (int)g[3])), ((unsigned)c - (unsigned)i), ((unsigned)((int)t >> (int)(s.a[1] & 31u))));
  return t ^ a ^ b ^ u ^ r;
}
unsigned f2(unsigned p0, unsigned p1, unsigned p2, unsigned p3, unsigned p4, unsigned p5, unsigned p6) {
  unsigned a; unsigned b; unsigned t; unsigned u; register unsigned r; char c; int i;
  a = p0; b = p1; t = 0u; u = 1u; r = 2u; c = 0; i = 0;
  r = (p1 << (((p0 + t) << (((unsigned)(p1 || p0)) & 31u)) & 31u));
  g[(p5 ^ p2) & 15u] = (((r - p3) - (p4 - p2)) | ((g[3] ^ p5) * (65535u - p5)));
  s.a[(g[3] % (a | 1u)) & 3u] = ((p3 ^ b) ^ ((unsigned)c ^ p4)); s.c = (char)t; w = s; t = t + w.a[(t * a) & 3u] + (unsigned)w.c; s = w;
  b = (unsigned)i;
  if (((p1 + u) + (p5 / (u | 1u)))) { c = (char)65535u; t = t ^ (unsigned)c; } else { c = (char)((unsigned)((int)(p4 ^ (unsigned)c) <= (int)(p5 | t))); t = t ^ (unsigned)c; }
  c = (char)t; t = t ^ (unsigned)c;
  t = t + f1((p3 >> (b & 31u)), ((unsigned)c + r), (p3 | t), ((unsigned)c ? g[3] : p3));
  return t ^ a ^ b ^ u ^ r;
}
int main(void) { int i; unsigned t; t = 0u; for (i = 0; i < 40; i++) { t = t * 3u + f2((unsigned)i, t, 56u, 96u, 14u, 7u, 3u); putchar((int)(t & 63u) + 32); } num(t); return (int)(t & 127u); }
