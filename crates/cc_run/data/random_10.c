void num(unsigned n) { if (n >= 10u) num(n / 10u); putchar((int)(n % 10u) + 48); }
void show(int n) { if (n < 0) { putchar('-'); num(-(unsigned)n); } else num((unsigned)n); putchar(10); }
unsigned g[16]; struct m { char c; unsigned a[4]; char d; } s, w;
unsigned f0(unsigned p0, unsigned p1) {
  unsigned a; unsigned b; unsigned t; unsigned u; register unsigned r; char c; int i;
  a = p0; b = p1; t = 0u; u = 1u; r = 2u; c = 0; i = 0;
  switch ((int)((s.a[1] % (p1 | 1u)) & 3u)) { case 0: a = a + 1u; case 1: r = r + ((g[a & 15u] ^ t) + ((unsigned)((int)s.a[1] >> (int)((unsigned)c & 31u)))); break; case 2: b = b ^ t; default: u = u - 1u; }
  g[p0 & 15u] = ((unsigned)(((u | r) >> ((g[3] - s.a[1]) & 31u)) != (((unsigned)(u <= (unsigned)c)) * (p0 % (s.a[1] | 1u)))));
  c = (char)((s.a[1] >> (p0 & 31u)) & (s.a[1] % (p0 | 1u))); t = t ^ (unsigned)c;
  c = (char)(unsigned)i; t = t ^ (unsigned)c;
  switch ((int)(a & 3u)) { case 0: a = a + 1u; case 1: r = r + ((unsigned)c ^ (g[3] ? 255u : 7u)); break; case 2: b = b ^ t; default: u = u - 1u; }
  s.a[((unsigned)c + 0u) & 3u] = ((unsigned)((a / (p0 | 1u)) && ((unsigned)((int)g[3] >> (int)(u & 31u))))); s.c = (char)t; w = s; t = t + w.a[(p1 | p1) & 3u] + (unsigned)w.c; s = w;
  return t ^ a ^ b ^ u ^ r;
}
unsigned f1(unsigned p0, register unsigned p1, unsigned p2) {
  unsigned a; unsigned b; unsigned t; unsigned u; register unsigned r; char c; int i;
  a = p0; b = p1; t = 0u; u = 1u; r = 2u; c = 0; i = 0;
  b = ((unsigned)((g[3] * ((unsigned)i ^ s.a[1])) != (((unsigned)(char)s.a[1]) % ((g[3] & p1) | 1u))));
  if (((p1 & (unsigned)c) / ((31u ^ p0) | 1u))) { a = ((unsigned)((int)((a & g[a & 15u]) & ((unsigned)((int)p1 >> (int)(31u & 31u)))) == (int)(((unsigned)(char)g[a & 15u]) >> (((unsigned)i + u) & 31u)))); } else { a = ((unsigned)((int)((g[3] - t) << (((unsigned)(char)(unsigned)c) & 31u)) >> (int)(((unsigned)((int)((unsigned)((int)g[a & 15u] == (int)31u)) == (int)(p0 / (b | 1u)))) & 31u))); }
  switch ((int)(u & 3u)) { case 0: a = a + 1u; case 1: r = r + ((p2 & 134290711u) - (g[3] - a)); break; case 2: b = b ^ t; default: u = u - 1u; }
  if (((p2 / (b | 1u)) & p1)) { a = (((s.a[1] & a) * (t ? b : t)) + p2); } else { s.a[(unsigned)c & 3u] = ((unsigned)((a | u) < t)); s.c = (char)t; w = s; t = t + w.a[(65535u + t) & 3u] + (unsigned)w.c; s = w; }
  c = (char)((unsigned)(char)(a * p1)); t = t ^ (unsigned)c;
  t = (((g[3] | s.a[1]) - (p2 ^ t)) & ((unsigned)((int)(2u & (unsigned)c) < (int)((unsigned)((int)p0 > (int)1u)))));
  b = (((g[3] * p0) << ((2u + g[a & 15u]) & 31u)) + (unsigned)i);
  r = (((65535u & s.a[1]) & ((unsigned)c ? (unsigned)i : t)) % (((unsigned)(char)(u | t)) | 1u));
  b = ((p2 + ((unsigned)(t >= p0))) * ((u & t) ? (g[a & 15u] << (2147483648u & 31u)) : (p1 & p1)));
  c = (char)2147483648u; t = t ^ (unsigned)c;
  t = t + f0(p2, (s.a[1] - u));
  return t ^ a ^ b ^ u ^ r;
}
unsigned f2(register unsigned p0, unsigned p1, unsigned p2, register unsigned p3, unsigned p4, unsigned p5, register unsigned p6) {
  unsigned a; unsigned b; unsigned t; unsigned u; register unsigned r; char c; int i;
  a = p0; b = p1; t = 0u; u = 1u; r = 2u; c = 0; i = 0;
  s.a[(255u | p5) & 3u] = ((b ? p4 : p6) ^ (unsigned)i); s.c = (char)t; w = s; t = t + w.a[(p1 << (u & 31u)) & 3u] + (unsigned)w.c; s = w;
  c = (char)((p4 ^ p0) & (p6 + b)); t = t ^ (unsigned)c;
  s.a[(r << ((unsigned)i & 31u)) & 3u] = ((p2 - p2) << ((p4 * g[3]) & 31u)); s.c = (char)t; w = s; t = t + w.a[(g[3] * (unsigned)c) & 3u] + (unsigned)w.c; s = w;
  switch ((int)((p1 << (t & 31u)) & 3u)) { case 0: a = a + 1u; case 1: r = r + ((p6 / (b | 1u)) / ((p3 ? p5 : (unsigned)i) | 1u)); break; case 2: b = b ^ t; default: u = u - 1u; }
  for (i = 0; i < 4; i++) { a = (g[3] ^ (4294967295u | g[a & 15u])); t = t + u; }
  t = p4;
  r = (g[3] - ((g[3] << (a & 31u)) & ((unsigned)(g[3] || g[a & 15u]))));
  for (i = 0; i < 3; i++) { u = ((r & t) * (a ^ g[a & 15u])); t = t + a; }
  if (((p3 + (unsigned)c) ? (g[3] & b) : ((unsigned)((int)p6 >> (int)(1u & 31u))))) { c = (char)((a << (3u & 31u)) >> (7u & 31u)); t = t ^ (unsigned)c; } else { a = ((unsigned)(char)((b ? b : p6) * s.a[1])); }
  for (i = 0; i < 4; i++) { b = ((unsigned)((g[3] ^ u) == (s.a[1] & p3))); t = t + u; }
  t = t + f1((u & r), (p3 >> (p3 & 31u)), ((unsigned)c * u));
  return t ^ a ^ b ^ u ^ r;
}
unsigned f3(unsigned p0, unsigned p1) {
  unsigned a; unsigned b; unsigned t; unsigned u; register unsigned r; char c; int i;
  a = p0; b = p1; t = 0u; u = 1u; r = 2u; c = 0; i = 0;
  s.a[(0u % (g[a & 15u] | 1u)) & 3u] = ((r & r) + ((unsigned)(u >= p1))); s.c = (char)t; w = s; t = t + w.a[r & 3u] + (unsigned)w.c; s = w;
  s.a[((unsigned)((int)r >> (int)(g[a & 15u] & 31u))) & 3u] = ((unsigned)((int)(g[a & 15u] >> (s.a[1] & 31u)) >> (int)(((unsigned)c ^ p1) & 31u))); s.c = (char)t; w = s; t = t + w.a[(t - a) & 3u] + (unsigned)w.c; s = w;
  b = (((s.a[1] ^ b) | ((unsigned)((int)(unsigned)i >> (int)(u & 31u)))) & ((unsigned)(char)(g[3] << (r & 31u))));
  t = ((unsigned)((int)p0 >> (int)(((b + p0) / ((u << (u & 31u)) | 1u)) & 31u)));
  a = (((unsigned)((int)(g[a & 15u] / (g[a & 15u] | 1u)) >> (int)(((unsigned)(s.a[1] < (unsigned)c)) & 31u))) ? (unsigned)c : ((unsigned)((int)(255u + g[3]) != (int)((unsigned)c ^ t))));
  r = (((unsigned)c % (((unsigned)(char)(unsigned)c) | 1u)) % (((u & g[3]) | ((unsigned)((int)p0 >> (int)(g[3] & 31u)))) | 1u));
  t = t + f2((2u << (1970006555u & 31u)), ((unsigned)i % (g[3] | 1u)), (g[a & 15u] + b), (s.a[1] >> (1u & 31u)), ((unsigned)((int)(unsigned)i != (int)g[a & 15u])), (p1 ? u : 0u), ((unsigned)(char)2147483648u));
  return t ^ a ^ b ^ u ^ r;
}
int main(void) { int i; unsigned t; t = 0u; for (i = 0; i < 40; i++) { t = t * 3u + f3((unsigned)i, t); putchar((int)(t & 63u) + 32); } num(t); return (int)(t & 127u); }
