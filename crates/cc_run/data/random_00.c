void num(unsigned n) { if (n >= 10u) num(n / 10u); putchar((int)(n % 10u) + 48); }
void show(int n) { if (n < 0) { putchar('-'); num(-(unsigned)n); } else num((unsigned)n); putchar(10); }
unsigned g[16]; struct m { char c; unsigned a[4]; char d; } s, w;
unsigned f0(unsigned p0, unsigned p1, unsigned p2, register unsigned p3, unsigned p4, unsigned p5, unsigned p6, unsigned p7) {
  unsigned a; unsigned b; unsigned t; register unsigned u; register unsigned r; char c; int i;
  a = p0; b = p1; t = 0u; u = 1u; r = 2u; c = 0; i = 0;
  g[(r << (p0 & 31u)) & 15u] = ((((unsigned)i ^ p2) >> ((s.a[1] | g[a & 15u]) & 31u)) * (((unsigned)(char)p6) & (g[a & 15u] | t)));
  g[((unsigned)i - r) & 15u] = (((unsigned)((int)(p1 % (u | 1u)) <= (int)(a >> (s.a[1] & 31u)))) - ((0u | g[a & 15u]) >> ((u & u) & 31u)));
  a = (((b << (u & 31u)) * ((unsigned)((int)p5 > (int)g[3]))) ^ (((unsigned)(char)p5) * ((unsigned)((int)p7 >> (int)(t & 31u)))));
  r = ((b ? (r << (p3 & 31u)) : (s.a[1] & 255u)) / (((a * p0) & (p7 ^ p2)) | 1u));
  for (i = 0; i < 2; i++) { b = p6; t = t + u; }
  g[(unsigned)i & 15u] = (p4 & ((r ^ g[a & 15u]) - (b >> (g[3] & 31u))));
  if (p0) { for (i = 0; i < 2; i++) { u = ((unsigned)c ^ (s.a[1] | g[3])); t = t + t; } } else { if (((p0 ^ u) >> ((r & 3950033509u) & 31u))) { a = (((p5 - p1) & (p1 % (p6 | 1u))) | (b + (g[a & 15u] - p7))); } else { b = ((unsigned)(((p6 ? r : p4) ? (g[a & 15u] >> (p0 & 31u)) : (p6 >> (255u & 31u))) && (((unsigned)c | p2) * (4294967295u * p5)))); } }
  c = (char)((b - p3) + (b + p4)); t = t ^ (unsigned)c;
  switch ((int)((p0 + p5) & 3u)) { case 0: a = a + 1u; case 1: r = r + ((unsigned)(char)((unsigned)c >> (u & 31u))); break; case 2: b = b ^ t; default: u = u - 1u; }
  return t ^ a ^ b ^ u ^ r;
}
unsigned f1(unsigned p0, unsigned p1) {
  unsigned a; unsigned b; unsigned t; unsigned u; register unsigned r; char c; int i;
  a = p0; b = p1; t = 0u; u = 1u; r = 2u; c = 0; i = 0;
  g[((unsigned)(t && b)) & 15u] = g[a & 15u];
  c = (char)b; t = t ^ (unsigned)c;
  for (i = 0; i < 2; i++) { a = ((b ^ u) - (g[3] - u)); t = t + s.a[1]; }
  u = (g[3] % ((((unsigned)i >> (g[a & 15u] & 31u)) << (((unsigned)i * r) & 31u)) | 1u));
  c = (char)(((unsigned)((int)r >= (int)(unsigned)c)) & ((unsigned)((int)p0 >> (int)(a & 31u)))); t = t ^ (unsigned)c;
  for (i = 0; i < 5; i++) { b = (65535u ? (unsigned)i : (g[a & 15u] | g[3])); t = t + u; }
  if (s.a[1]) { b = (((a ? 4294967295u : a) ^ b) << (((b * (unsigned)i) << (b & 31u)) & 31u)); } else { c = (char)((p0 & r) << ((g[a & 15u] * p0) & 31u)); t = t ^ (unsigned)c; }
  for (i = 0; i < 5; i++) { r = ((g[3] * a) ? (r >> (u & 31u)) : (unsigned)i); t = t + p0; }
  if ((b / ((g[a & 15u] >> (s.a[1] & 31u)) | 1u))) { r = (((unsigned)(char)((unsigned)((int)3u != (int)(unsigned)c))) ^ p1); } else { b = ((((unsigned)((int)p0 >> (int)(p1 & 31u))) << ((a >> (r & 31u)) & 31u)) * (u & (b >> ((unsigned)i & 31u)))); }
  t = t + f0((u ^ r), (s.a[1] << (r & 31u)), (p1 & s.a[1]), (1u | s.a[1]), t, (g[3] / ((unsigned)i | 1u)), ((unsigned)i * p0), (u ^ a));
  return t ^ a ^ b ^ u ^ r;
}
unsigned f2(register unsigned p0, unsigned p1, unsigned p2, unsigned p3, unsigned p4, register unsigned p5) {
  unsigned a; unsigned b; unsigned t; register unsigned u; register unsigned r; char c; int i;
  a = p0; b = p1; t = 0u; u = 1u; r = 2u; c = 0; i = 0;
  for (i = 0; i < 3; i++) { u = (p5 / ((a - r) | 1u)); t = t + t; }
  b = (s.a[1] ? ((p1 | a) ^ (p2 ? s.a[1] : p0)) : (((unsigned)((int)b <= (int)s.a[1])) >> ((b ^ p5) & 31u)));
  for (i = 0; i < 2; i++) { a = ((unsigned)(p3 && p0)); t = t + p2; }
  u = ((unsigned)(char)(((unsigned)((int)r > (int)p0)) ^ (u ^ p0)));
  switch ((int)((unsigned)c & 3u)) { case 0: a = a + 1u; case 1: r = r + ((p0 >> (r & 31u)) + ((unsigned)c - p3)); break; case 2: b = b ^ t; default: u = u - 1u; }
  t = t + f1((a + g[a & 15u]), ((unsigned)(g[3] && u)));
  return t ^ a ^ b ^ u ^ r;
}
int main(void) { int i; unsigned t; t = 0u; for (i = 0; i < 40; i++) { t = t * 3u + f2((unsigned)i, t, 96u, 55u, 34u, 39u); putchar((int)(t & 63u) + 32); } num(t); return (int)(t & 127u); }
