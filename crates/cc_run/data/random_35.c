void num(unsigned n) { if (n >= 10u) num(n / 10u); putchar((int)(n % 10u) + 48); }
void show(int n) { if (n < 0) { putchar('-'); num(-(unsigned)n); } else num((unsigned)n); putchar(10); }
unsigned g[16]; struct m { char c; unsigned a[4]; char d; } s, w;
unsigned f0(unsigned p0, register unsigned p1, unsigned p2, unsigned p3) {
  unsigned a; unsigned b; unsigned t; register unsigned u; register unsigned r; char c; int i;
  a = p0; b = p1; t = 0u; u = 1u; r = 2u; c = 0; i = 0;
  if (((a ^ g[3]) % ((g[3] * b) | 1u))) { r = p1; } else { switch ((int)(((unsigned)i ? g[a & 15u] : p2) & 3u)) { case 0: a = a + 1u; case 1: r = r + ((7u ? g[a & 15u] : g[a & 15u]) - (b / (a | 1u))); break; case 2: b = b ^ t; default: u = u - 1u; } }
  switch ((int)((p3 | r) & 3u)) { case 0: a = a + 1u; case 1: r = r + ((unsigned)((int)((unsigned)((int)(unsigned)c != (int)65535u)) == (int)s.a[1])); break; case 2: b = b ^ t; default: u = u - 1u; }
  switch ((int)(3u & 3u)) { case 0: a = a + 1u; case 1: r = r + (s.a[1] << ((g[3] & (unsigned)i) & 31u)); break; case 2: b = b ^ t; default: u = u - 1u; }
  g[(p1 & t) & 15u] = 2147483648u;
  for (i = 0; i < 5; i++) { u = (((unsigned)((int)g[3] >> (int)(g[a & 15u] & 31u))) + (s.a[1] ? g[3] : p1)); t = t + r; }
  for (i = 0; i < 5; i++) { r = (unsigned)i; t = t + r; }
  s.a[(b | p2) & 3u] = (((unsigned)(r <= r)) - ((unsigned)(char)p2)); s.c = (char)t; w = s; t = t + w.a[(u / (t | 1u)) & 3u] + (unsigned)w.c; s = w;
  t = (((p3 ? p0 : p3) >> ((p3 + (unsigned)c) & 31u)) << (t & 31u));
  return t ^ a ^ b ^ u ^ r;
}
unsigned f1(unsigned p0, unsigned p1, unsigned p2, unsigned p3) {
  unsigned a; unsigned b; unsigned t; unsigned u; register unsigned r; char c; int i;
  a = p0; b = p1; t = 0u; u = 1u; r = 2u; c = 0; i = 0;
  u = (((7u - (unsigned)c) + ((unsigned)i << ((unsigned)c & 31u))) << (((r / (p2 | 1u)) | (p0 >> ((unsigned)i & 31u))) & 31u));
  switch ((int)(((unsigned)((int)a <= (int)p0)) & 3u)) { case 0: a = a + 1u; case 1: r = r + ((unsigned)((int)((unsigned)((int)(unsigned)i == (int)s.a[1])) >> (int)(((unsigned)i >> (a & 31u)) & 31u))); break; case 2: b = b ^ t; default: u = u - 1u; }
  switch ((int)(((unsigned)i * p0) & 3u)) { case 0: a = a + 1u; case 1: r = r + ((p3 / (u | 1u)) & g[3]); break; case 2: b = b ^ t; default: u = u - 1u; }
  s.a[t & 3u] = ((unsigned)(((unsigned)c + r) == (unsigned)i)); s.c = (char)t; w = s; t = t + w.a[(p2 & r) & 3u] + (unsigned)w.c; s = w;
  switch ((int)(((unsigned)(char)p0) & 3u)) { case 0: a = a + 1u; case 1: r = r + p1; break; case 2: b = b ^ t; default: u = u - 1u; }
  a = ((unsigned)(((p0 - r) ^ a) || ((t | p3) * (u ? p1 : g[a & 15u]))));
  u = ((b | (u | a)) & (((unsigned)((int)g[a & 15u] >> (int)((unsigned)c & 31u))) << ((p1 ? t : a) & 31u)));
  switch ((int)(((unsigned)i % (r | 1u)) & 3u)) { case 0: a = a + 1u; case 1: r = r + (((unsigned)((int)g[a & 15u] >> (int)(g[3] & 31u))) * ((unsigned)(char)u)); break; case 2: b = b ^ t; default: u = u - 1u; }
  t = (((t | s.a[1]) * (p3 & g[3])) >> ((b / ((s.a[1] & a) | 1u)) & 31u));
  t = t + f0(((unsigned)(char)r), (p2 % (b | 1u)), (t - a), (p3 | (unsigned)i));
  return t ^ a ^ b ^ u ^ r;
}
unsigned f2(unsigned p0, unsigned p1, unsigned p2, register unsigned p3, unsigned p4) {
  unsigned a; unsigned b; unsigned t; register unsigned u; register unsigned r; char c; int i;
  a = p0; b = p1; t = 0u; u = 1u; r = 2u; c = 0; i = 0;
  s.a[((unsigned)c | r) & 3u] = ((unsigned)((int)(p0 >> (u & 31u)) >> (int)((unsigned)i & 31u))); s.c = (char)t; w = s; t = t + w.a[(s.a[1] | g[a & 15u]) & 3u] + (unsigned)w.c; s = w;
  if (((unsigned)((int)(g[a & 15u] >> (g[3] & 31u)) >> (int)((p2 / ((unsigned)i | 1u)) & 31u)))) { b = (p4 + (((unsigned)(char)b) & (r ^ p3))); } else { r = (((t << (s.a[1] & 31u)) ^ (u % (a | 1u))) % (t | 1u)); }
  if ((((unsigned)((int)(unsigned)i >> (int)(65535u & 31u))) & ((unsigned)(char)(unsigned)i))) { for (i = 0; i < 2; i++) { r = ((p1 - b) + (g[a & 15u] ? g[a & 15u] : g[a & 15u])); t = t + u; } } else { b = g[3]; }
  for (i = 0; i < 2; i++) { a = p0; t = t + a; }
  if (((t + a) * (t & p0))) { if (((p1 + g[3]) * u)) { t = g[3]; } else { t = (p4 & ((unsigned)((int)((unsigned)(g[a & 15u] < (unsigned)c)) >> (int)((2u - p4) & 31u)))); } } else { t = (((a & (unsigned)i) + ((unsigned)(char)a)) & ((unsigned)((int)((unsigned)(b != a)) == (int)(p1 / (g[3] | 1u))))); }
  s.a[255u & 3u] = r; s.c = (char)t; w = s; t = t + w.a[((unsigned)((int)t >> (int)(255u & 31u))) & 3u] + (unsigned)w.c; s = w;
  for (i = 0; i < 5; i++) { u = ((r / (p2 | 1u)) + (p4 ^ a)); t = t + a; }
  g[(p1 >> (u & 31u)) & 15u] = (unsigned)c;
  g[((unsigned)(u < (unsigned)c)) & 15u] = ((unsigned)(g[a & 15u] > (((unsigned)i ^ s.a[1]) / (s.a[1] | 1u))));
  t = (((unsigned)((int)(p1 ? s.a[1] : u) == (int)b)) & ((b << (p2 & 31u)) % ((r % (p4 | 1u)) | 1u)));
  b = ((g[3] & (a ^ p3)) & ((p1 ^ s.a[1]) * (g[a & 15u] % (p0 | 1u))));
  t = t + f1(((unsigned)c & a), (g[a & 15u] >> (g[a & 15u] & 31u)), ((unsigned)c | r), ((unsigned)((int)p2 <= (int)p3)));
  return t ^ a ^ b ^ u ^ r;
}
unsigned f3(unsigned p0, unsigned p1, register unsigned p2, unsigned p3, unsigned p4) {
  unsigned a; unsigned b; unsigned t; unsigned u; register unsigned r; char c; int i;
  a = p0; b = p1; t = 0u; u = 1u; r = 2u; c = 0; i = 0;
  switch ((int)(0u & 3u)) { case 0: a = a + 1u; case 1: r = r + ((s.a[1] ^ p1) / ((r & (unsigned)c) | 1u)); break; case 2: b = b ^ t; default: u = u - 1u; }
  c = (char)(s.a[1] << ((2u / (p1 | 1u)) & 31u)); t = t ^ (unsigned)c;
  if ((((unsigned)((unsigned)c >= p3)) + (p4 & s.a[1]))) { u = (((unsigned)((int)(g[3] / ((unsigned)c | 1u)) >> (int)((a | b) & 31u))) >> (((unsigned)((int)(b * a) == (int)(t & r))) & 31u)); } else { g[(u - s.a[1]) & 15u] = ((unsigned)(char)((unsigned)((int)b >= (int)((unsigned)((int)g[3] < (int)s.a[1]))))); }
  for (i = 0; i < 4; i++) { b = ((g[3] & g[3]) / (((unsigned)((int)p1 >> (int)(p3 & 31u))) | 1u)); t = t + p4; }
  c = (char)(unsigned)c; t = t ^ (unsigned)c;
  u = ((((unsigned)((int)s.a[1] > (int)g[3])) * ((unsigned)c - 3u)) | ((unsigned)(char)((unsigned)i ? (unsigned)c : r)));
  if (((s.a[1] ^ p0) & b)) { s.a[(b << ((unsigned)i & 31u)) & 3u] = ((unsigned)(char)(g[3] | p4)); s.c = (char)t; w = s; t = t + w.a[(s.a[1] % (p4 | 1u)) & 3u] + (unsigned)w.c; s = w; } else { s.a[a & 3u] = p0; s.c = (char)t; w = s; t = t + w.a[(0u - p2) & 3u] + (unsigned)w.c; s = w; }
  a = (b * ((unsigned)((g[a & 15u] / (g[a & 15u] | 1u)) > (p1 % (g[a & 15u] | 1u)))));
  for (i = 0; i < 3; i++) { r = (((unsigned)(char)u) + (g[a & 15u] ^ t)); t = t + r; }
  r = (((2147483648u << (s.a[1] & 31u)) ^ ((unsigned)(char)p4)) << (((unsigned)((int)(p4 * b) >> (int)((r / (p1 | 1u)) & 31u))) & 31u));
  t = t + f2((p0 % (g[a & 15u] | 1u)), ((unsigned)((int)(unsigned)i >> (int)(b & 31u))), (s.a[1] & s.a[1]), (p1 ^ g[a & 15u]), (a + (unsigned)c));
  return t ^ a ^ b ^ u ^ r;
}
int main(void) { int i; unsigned t; t = 0u; for (i = 0; i < 40; i++) { t = t * 3u + f3((unsigned)i, t, 50u, 42u, 74u); putchar((int)(t & 63u) + 32); } num(t); return (int)(t & 127u); }
