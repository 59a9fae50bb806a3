void num(unsigned n) { if (n >= 10u) num(n / 10u); putchar((int)(n % 10u) + 48); }
void show(int n) { if (n < 0) { putchar('-'); num(-(unsigned)n); } else num((unsigned)n); putchar(10); }
unsigned g[16]; struct m { char c; unsigned a[4]; char d; } s, w;
unsigned f0(unsigned p0, unsigned p1, register unsigned p2) {
  unsigned a; unsigned b; unsigned t; unsigned u; register unsigned r; char c; int i;
  a = p0; b = p1; t = 0u; u = 1u; r = 2u; c = 0; i = 0;
  a = (unsigned)i;
  switch ((int)((a * b) & 3u)) { case 0: a = a + 1u; case 1: r = r + g[a & 15u]; break; case 2: b = b ^ t; default: u = u - 1u; }
  a = (((g[3] ? (unsigned)c : (unsigned)c) << (g[a & 15u] & 31u)) / ((s.a[1] ? p1 : (r | u)) | 1u));
  switch ((int)(((unsigned)c / (g[a & 15u] | 1u)) & 3u)) { case 0: a = a + 1u; case 1: r = r + ((unsigned)((int)(g[3] + b) >> (int)((s.a[1] - g[a & 15u]) & 31u))); break; case 2: b = b ^ t; default: u = u - 1u; }
  for (i = 0; i < 4; i++) { a = (g[3] & (a * (unsigned)i)); t = t + u; }
  u = (((unsigned)(char)65535u) + ((p2 + a) | (a >> ((unsigned)i & 31u))));
  a = (unsigned)c;
  switch ((int)(r & 3u)) { case 0: a = a + 1u; case 1: r = r + (((unsigned)((int)g[3] == (int)t)) * (g[3] << (r & 31u))); break; case 2: b = b ^ t; default: u = u - 1u; }
  return t ^ a ^ b ^ u ^ r;
}
unsigned f1(register unsigned p0, unsigned p1, unsigned p2, register unsigned p3, unsigned p4, unsigned p5, unsigned p6) {
  unsigned a; unsigned b; unsigned t; unsigned u; register unsigned r; char c; int i;
  a = p0; b = p1; t = 0u; u = 1u; r = 2u; c = 0; i = 0;
  g[(r * p5) & 15u] = ((((unsigned)(char)a) ? (p1 % (p2 | 1u)) : (p1 | s.a[1])) | (p3 | (g[3] & p3)));
  c = (char)((g[3] ^ p6) - (2u - u)); t = t ^ (unsigned)c;
  switch ((int)(((unsigned)(char)g[a & 15u]) & 3u)) { case 0: a = a + 1u; case 1: r = r + (p4 >> ((u + g[a & 15u]) & 31u)); break; case 2: b = b ^ t; default: u = u - 1u; }
  switch ((int)((p3 - (unsigned)c) & 3u)) { case 0: a = a + 1u; case 1: r = r + ((r ? t : (unsigned)i) >> (b & 31u)); break; case 2: b = b ^ t; default: u = u - 1u; }
  if (t) { b = (g[3] + (((unsigned)(char)a) / (((unsigned)(char)p4) | 1u))); } else { b = (((t & u) & (r | p0)) * ((unsigned)((p0 << (a & 31u)) > (b / (u | 1u))))); }
  if (((unsigned)((int)0u <= (int)((unsigned)i ? p6 : u)))) { s.a[(g[a & 15u] | r) & 3u] = ((g[a & 15u] * b) & ((unsigned)c << (p6 & 31u))); s.c = (char)t; w = s; t = t + w.a[(p0 | p0) & 3u] + (unsigned)w.c; s = w; } else { u = ((unsigned)((int)(((unsigned)((int)p6 >= (int)p5)) >> ((unsigned)i & 31u)) >> (int)((((unsigned)i / (p0 | 1u)) / ((g[3] / (b | 1u)) | 1u)) & 31u))); }
  c = (char)((p5 / (b | 1u)) ? ((unsigned)(char)g[a & 15u]) : (p2 ^ s.a[1])); t = t ^ (unsigned)c;
  t = (((r | 31u) << (p0 & 31u)) / ((((unsigned)((int)p2 >> (int)(t & 31u))) % ((p5 / (b | 1u)) | 1u)) | 1u));
  c = (char)(u ^ (p0 * u)); t = t ^ (unsigned)c;
  s.a[(g[a & 15u] * a) & 3u] = (((unsigned)((unsigned)c <= (unsigned)i)) * ((unsigned)(b == r))); s.c = (char)t; w = s; t = t + w.a[((unsigned)c & 255u) & 3u] + (unsigned)w.c; s = w;
  u = ((((unsigned)c << (u & 31u)) - ((unsigned)(g[a & 15u] == p6))) / (((unsigned)i << ((p3 / ((unsigned)c | 1u)) & 31u)) | 1u));
  t = t + f0((g[a & 15u] & (unsigned)i), (g[a & 15u] / (r | 1u)), g[3]);
  return t ^ a ^ b ^ u ^ r;
}
int main(void) { int i; unsigned t; t = 0u; for (i = 0; i < 40; i++) { t = t * 3u + f1((unsigned)i, t, 26u, 37u, 62u, 37u, 64u); putchar((int)(t & 63u) + 32); } num(t); return (int)(t & 127u); }
