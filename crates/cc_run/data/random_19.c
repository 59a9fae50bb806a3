void num(unsigned n) { if (n >= 10u) num(n / 10u); putchar((int)(n % 10u) + 48); }
void show(int n) { if (n < 0) { putchar('-'); num(-(unsigned)n); } else num((unsigned)n); putchar(10); }
unsigned g[16]; struct m { char c; unsigned a[4]; char d; } s, w;
unsigned f0(register unsigned p0, unsigned p1) {
  unsigned a; unsigned b; unsigned t; unsigned u; register unsigned r; char c; int i;
  a = p0; b = p1; t = 0u; u = 1u; r = 2u; c = 0; i = 0;
  for (i = 0; i < 4; i++) { b = ((1u >> ((unsigned)c & 31u)) & ((unsigned)i + 1u)); t = t + a; }
  r = ((unsigned)((int)((3u - g[a & 15u]) << ((unsigned)i & 31u)) != (int)((u ? s.a[1] : (unsigned)i) ^ b)));
  if (((t % (b | 1u)) ? ((unsigned)((int)r <= (int)u)) : ((unsigned)(s.a[1] <= a)))) { g[((unsigned)c | a) & 15u] = ((unsigned)((int)((p0 >> (u & 31u)) & ((unsigned)(char)p1)) >> (int)(((t ^ p0) * ((unsigned)(char)g[a & 15u])) & 31u))); } else { t = (((unsigned)((int)p0 <= (int)((unsigned)c | t))) * (((unsigned)c ^ b) - ((unsigned)((int)p1 <= (int)u)))); }
  switch ((int)((a / (u | 1u)) & 3u)) { case 0: a = a + 1u; case 1: r = r + (t ? g[3] : ((unsigned)(char)u)); break; case 2: b = b ^ t; default: u = u - 1u; }
  s.a[((unsigned)(char)r) & 3u] = b; s.c = (char)t; w = s; t = t + w.a[(2147483648u ? s.a[1] : t) & 3u] + (unsigned)w.c; s = w;
  switch ((int)((2u >> (b & 31u)) & 3u)) { case 0: a = a + 1u; case 1: r = r + s.a[1]; break; case 2: b = b ^ t; default: u = u - 1u; }
  a = g[3];
  if (((b * g[3]) - ((unsigned)(char)t))) { s.a[((unsigned)c ^ t) & 3u] = ((p0 | b) ^ ((unsigned)((int)(unsigned)i >> (int)(a & 31u)))); s.c = (char)t; w = s; t = t + w.a[(p1 << (a & 31u)) & 3u] + (unsigned)w.c; s = w; } else { switch ((int)((g[3] % ((unsigned)i | 1u)) & 3u)) { case 0: a = a + 1u; case 1: r = r + ((unsigned)((int)p1 != (int)g[3])); break; case 2: b = b ^ t; default: u = u - 1u; } }
  return t ^ a ^ b ^ u ^ r;
}
unsigned f1(register unsigned p0, register unsigned p1) {
  unsigned a; unsigned b; unsigned t; register unsigned u; register unsigned r; char c; int i;
  a = p0; b = p1; t = 0u; u = 1u; r = 2u; c = 0; i = 0;
  r = ((((unsigned)c ^ r) * (2u | 7u)) ? ((b * p0) ? (2u & s.a[1]) : ((unsigned)((int)a > (int)p1))) : ((unsigned)((r & g[a & 15u]) != (r >> (b & 31u)))));
  t = (((r ^ r) * (unsigned)i) >> (((unsigned)((s.a[1] << (r & 31u)) != b)) & 31u));
  switch ((int)((t / (7u | 1u)) & 3u)) { case 0: a = a + 1u; case 1: r = r + ((unsigned)(((unsigned)(b <= g[3])) < (31u & s.a[1]))); break; case 2: b = b ^ t; default: u = u - 1u; }
  s.a[(3641931230u + p0) & 3u] = ((g[a & 15u] >> (t & 31u)) - ((unsigned)(char)s.a[1])); s.c = (char)t; w = s; t = t + w.a[((unsigned)(char)p0) & 3u] + (unsigned)w.c; s = w;
  for (i = 0; i < 4; i++) { a = ((b >> ((unsigned)i & 31u)) + ((unsigned)((int)t >> (int)(g[3] & 31u)))); t = t + t; }
  t = t + f0((g[a & 15u] ^ b), (s.a[1] + (unsigned)i));
  return t ^ a ^ b ^ u ^ r;
}
unsigned f2(unsigned p0, unsigned p1, unsigned p2, register unsigned p3) {
  unsigned a; unsigned b; unsigned t; unsigned u; register unsigned r; char c; int i;
  a = p0; b = p1; t = 0u; u = 1u; r = 2u; c = 0; i = 0;
  switch ((int)((r + (unsigned)i) & 3u)) { case 0: a = a + 1u; case 1: r = r + ((s.a[1] + r) << ((a << (u & 31u)) & 31u)); break; case 2: b = b ^ t; default: u = u - 1u; }
  s.a[(p0 << (r & 31u)) & 3u] = (((unsigned)(u || u)) - ((unsigned)((int)(unsigned)c >> (int)(r & 31u)))); s.c = (char)t; w = s; t = t + w.a[r & 3u] + (unsigned)w.c; s = w;
  switch ((int)(255u & 3u)) { case 0: a = a + 1u; case 1: r = r + ((p0 % (g[3] | 1u)) >> (((unsigned)((int)g[a & 15u] >> (int)(p3 & 31u))) & 31u)); break; case 2: b = b ^ t; default: u = u - 1u; }
  if (t) { g[g[a & 15u] & 15u] = ((unsigned)((4294967295u >> (((unsigned)((int)s.a[1] >> (int)(p1 & 31u))) & 31u)) < ((p1 >> ((unsigned)c & 31u)) / (r | 1u)))); } else { if ((((unsigned)i & g[3]) % ((t ^ p0) | 1u))) { t = ((65535u & ((unsigned)(char)t)) | ((a + r) | (g[3] << (g[a & 15u] & 31u)))); } else { b = ((unsigned)((int)((t << (g[3] & 31u)) | (u ^ u)) == (int)(p2 * (g[a & 15u] | p0)))); } }
  a = (((unsigned)((int)((unsigned)(s.a[1] < t)) >> (int)((g[a & 15u] / (p3 | 1u)) & 31u))) - ((unsigned)(char)(t & 1u)));
  g[(t % (p2 | 1u)) & 15u] = ((((unsigned)(char)g[a & 15u]) | (p2 + p1)) << (((r - g[3]) * ((unsigned)(char)g[3])) & 31u));
  s.a[((unsigned)i / (a | 1u)) & 3u] = (g[a & 15u] << ((p2 / ((unsigned)c | 1u)) & 31u)); s.c = (char)t; w = s; t = t + w.a[(g[a & 15u] ? (unsigned)c : a) & 3u] + (unsigned)w.c; s = w;
  g[(p3 - p1) & 15u] = (s.a[1] ^ ((s.a[1] / (p3 | 1u)) & (p3 << (u & 31u))));
  for (i = 0; i < 5; i++) { u = ((p3 / (g[a & 15u] | 1u)) >> (g[3] & 31u)); t = t + p0; }
  r = s.a[1];
  t = t + f1(((unsigned)(char)p1), (r % (p2 | 1u)));
  return t ^ a ^ b ^ u ^ r;
}
unsigned f3(register unsigned p0, unsigned p1, unsigned p2, unsigned p3, register unsigned p4, unsigned p5, register unsigned p6) {
  unsigned a; unsigned b; unsigned t; register unsigned u; register unsigned r; char c; int i;
  a = p0; b = p1; t = 0u; u = 1u; r = 2u; c = 0; i = 0;
  c = (char)((unsigned)(char)(p3 << (u & 31u))); t = t ^ (unsigned)c;
  r = 2u;
  for (i = 0; i < 5; i++) { a = p0; t = t + p2; }
  s.a[((unsigned)c % (u | 1u)) & 3u] = ((unsigned)((g[a & 15u] ^ p1) || (p4 + s.a[1]))); s.c = (char)t; w = s; t = t + w.a[(b ? p5 : p6) & 3u] + (unsigned)w.c; s = w;
  r = (((unsigned)(char)g[3]) % ((((unsigned)(r < p6)) ^ ((unsigned)c % (p3 | 1u))) | 1u));
  t = t + f2(((unsigned)(p5 <= 255u)), 0u, ((unsigned)(p4 >= p3)), ((unsigned)c * s.a[1]));
  return t ^ a ^ b ^ u ^ r;
}
int main(void) { int i; unsigned t; t = 0u; for (i = 0; i < 40; i++) { t = t * 3u + f3((unsigned)i, t, 13u, 37u, 73u, 86u, 89u); putchar((int)(t & 63u) + 32); } num(t); return (int)(t & 127u); }
