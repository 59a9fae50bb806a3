void num(unsigned n) { if (n >= 10u) num(n / 10u); putchar((int)(n % 10u) + 48); }
void show(int n) { if (n < 0) { putchar('-'); num(-(unsigned)n); } else num((unsigned)n); putchar(10); }
unsigned g[16]; struct m { char c; unsigned a[4]; char d; } s, w;
unsigned f0(register unsigned p0, unsigned p1, unsigned p2, unsigned p3, unsigned p4) {
  unsigned a; unsigned b; unsigned t; unsigned u; register unsigned r; char c; int i;
  a = p0; b = p1; t = 0u; u = 1u; r = 2u; c = 0; i = 0;
  s.a[((unsigned)((int)s.a[1] >> (int)(b & 31u))) & 3u] = ((unsigned)((int)r >> (int)(((unsigned)c >> (r & 31u)) & 31u))); s.c = (char)t; w = s; t = t + w.a[(p1 & (unsigned)c) & 3u] + (unsigned)w.c; s = w;
  switch ((int)(((unsigned)((int)p1 >> (int)(3u & 31u))) & 3u)) { case 0: a = a + 1u; case 1: r = r + ((u * t) >> ((a << (3u & 31u)) & 31u)); break; case 2: b = b ^ t; default: u = u - 1u; }
  s.a[((unsigned)c & p3) & 3u] = (((unsigned)((int)g[a & 15u] >> (int)(p0 & 31u))) & (t - s.a[1])); s.c = (char)t; w = s; t = t + w.a[(p4 ? p1 : 0u) & 3u] + (unsigned)w.c; s = w;
  g[((unsigned)(g[a & 15u] >= b)) & 15u] = p0;
  if (p1) { g[(g[a & 15u] & g[a & 15u]) & 15u] = (t * ((0u ^ u) & (p2 << (t & 31u)))); } else { for (i = 0; i < 5; i++) { u = ((u / (p3 | 1u)) * ((unsigned)i - r)); t = t + (unsigned)i; } }
  c = (char)((b - t) % ((s.a[1] >> (p0 & 31u)) | 1u)); t = t ^ (unsigned)c;
  u = (((unsigned)c ^ (r ^ (unsigned)i)) ^ (((unsigned)(r && p3)) >> (((unsigned)((int)p3 > (int)u)) & 31u)));
  return t ^ a ^ b ^ u ^ r;
}
unsigned f1(unsigned p0, register unsigned p1, unsigned p2, unsigned p3, unsigned p4) {
  unsigned a; unsigned b; unsigned t; register unsigned u; register unsigned r; char c; int i;
  a = p0; b = p1; t = 0u; u = 1u; r = 2u; c = 0; i = 0;
  t = ((((unsigned)(g[3] || (unsigned)c)) + (p2 ? s.a[1] : p4)) & ((unsigned)((r | 0u) && (0u ? p2 : (unsigned)i))));
  g[u & 15u] = ((unsigned)((int)(((unsigned)c ? u : p3) ? ((unsigned)c / (b | 1u)) : (0u * g[3])) >> (int)(((unsigned)((int)((unsigned)(p2 >= b)) >> (int)((r >> (b & 31u)) & 31u))) & 31u)));
  b = ((unsigned)((int)((unsigned)(char)((unsigned)c * p4)) > (int)((unsigned)(char)(s.a[1] * s.a[1]))));
  r = (((a ^ p0) & ((unsigned)((int)p1 != (int)p2))) | ((unsigned)((int)((unsigned)i & u) == (int)(p4 - p4))));
  switch ((int)((s.a[1] << (g[3] & 31u)) & 3u)) { case 0: a = a + 1u; case 1: r = r + ((p1 / (a | 1u)) & 2u); break; case 2: b = b ^ t; default: u = u - 1u; }
  g[(u | g[a & 15u]) & 15u] = ((unsigned)(char)(((unsigned)(char)p2) + (g[3] | s.a[1])));
  g[((unsigned)((int)p3 >> (int)(3u & 31u))) & 15u] = (((unsigned)((int)((unsigned)(p3 >= g[a & 15u])) == (int)(g[3] % (g[3] | 1u)))) + ((unsigned)(p4 >= (a << (u & 31u)))));
  t = t + f0((t << (r & 31u)), ((unsigned)(char)p3), (p4 - r), (a & s.a[1]), ((unsigned)((int)p1 >> (int)(t & 31u))));
  return t ^ a ^ b ^ u ^ r;
}
unsigned f2(register unsigned p0, unsigned p1, register unsigned p2) {
  unsigned a; unsigned b; unsigned t; unsigned u; register unsigned r; char c; int i;
  a = p0; b = p1; t = 0u; u = 1u; r = 2u; c = 0; i = 0;
  g[(r >> (t & 31u)) & 15u] = (p0 - ((p1 + 3u) ^ ((unsigned)i ^ g[a & 15u])));
  u = ((unsigned)((int)((unsigned)((int)(r & p1) >> (int)((u * (unsigned)c) & 31u))) > (int)(((unsigned)((int)s.a[1] < (int)p0)) % ((unsigned)c | 1u))));
  for (i = 0; i < 3; i++) { u = p2; t = t + t; }
  a = ((((unsigned)(u == g[3])) - (g[a & 15u] >> (p1 & 31u))) & ((unsigned)(char)(s.a[1] ^ (unsigned)c)));
  for (i = 0; i < 4; i++) { b = t; t = t + g[3]; }
  t = t + f1((unsigned)i, ((unsigned)((int)(unsigned)i >> (int)(r & 31u))), (a - g[a & 15u]), g[3], ((unsigned)((int)s.a[1] >> (int)(p0 & 31u))));
  return t ^ a ^ b ^ u ^ r;
}
unsigned f3(unsigned p0, unsigned p1, unsigned p2, unsigned p3) {
  unsigned a; unsigned b; unsigned t; unsigned u; register unsigned r; char c; int i;
  a = p0; b = p1; t = 0u; u = 1u; r = 2u; c = 0; i = 0;
  for (i = 0; i < 2; i++) { b = (((unsigned)c & p2) & ((unsigned)(g[a & 15u] == p2))); t = t + u; }
  c = (char)(((unsigned)i % (p2 | 1u)) & (p2 / (a | 1u))); t = t ^ (unsigned)c;
  for (i = 0; i < 3; i++) { u = (p1 | (r * r)); t = t + p0; }
  for (i = 0; i < 5; i++) { r = (((unsigned)((int)(unsigned)c < (int)g[a & 15u])) ? (g[a & 15u] ? a : 7u) : ((unsigned)(char)g[3])); t = t + r; }
  c = (char)u; t = t ^ (unsigned)c;
  switch ((int)(((unsigned)i ? p3 : t) & 3u)) { case 0: a = a + 1u; case 1: r = r + ((b ? r : g[3]) | (a / (p3 | 1u))); break; case 2: b = b ^ t; default: u = u - 1u; }
  switch ((int)(((unsigned)((int)b >> (int)(a & 31u))) & 3u)) { case 0: a = a + 1u; case 1: r = r + ((unsigned)((a & a) == ((unsigned)((int)(unsigned)i <= (int)p3)))); break; case 2: b = b ^ t; default: u = u - 1u; }
  u = u;
  s.a[((unsigned)((int)a >> (int)(g[a & 15u] & 31u))) & 3u] = ((g[a & 15u] / (r | 1u)) / (((unsigned)i ^ p0) | 1u)); s.c = (char)t; w = s; t = t + w.a[((unsigned)i & p3) & 3u] + (unsigned)w.c; s = w;
  s.a[(t * b) & 3u] = p1; s.c = (char)t; w = s; t = t + w.a[((unsigned)c + p3) & 3u] + (unsigned)w.c; s = w;
  for (i = 0; i < 4; i++) { r = (((unsigned)i / (g[a & 15u] | 1u)) >> ((b ^ g[a & 15u]) & 31u)); t = t + g[a & 15u]; }
  t = t + f2((s.a[1] ? a : b), (b / (p0 | 1u)), ((unsigned)c ^ p2));
  return t ^ a ^ b ^ u ^ r;
}
int main(void) { int i; unsigned t; t = 0u; for (i = 0; i < 40; i++) { t = t * 3u + f3((unsigned)i, t, 91u, 10u); putchar((int)(t & 63u) + 32); } num(t); return (int)(t & 127u); }
