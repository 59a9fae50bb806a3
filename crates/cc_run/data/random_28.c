void num(unsigned n) { if (n >= 10u) num(n / 10u); putchar((int)(n % 10u) + 48); }
void show(int n) { if (n < 0) { putchar('-'); num(-(unsigned)n); } else num((unsigned)n); putchar(10); }
unsigned g[16]; struct m { char c; unsigned a[4]; char d; } s, w;
unsigned f0(unsigned p0, register unsigned p1, register unsigned p2, register unsigned p3, unsigned p4, unsigned p5, unsigned p6) {
  unsigned a; unsigned b; unsigned t; register unsigned u; register unsigned r; char c; int i;
  a = p0; b = p1; t = 0u; u = 1u; r = 2u; c = 0; i = 0;
  c = (char)((a & u) ^ (p6 >> (s.a[1] & 31u))); t = t ^ (unsigned)c;
  switch ((int)((unsigned)i & 3u)) { case 0: a = a + 1u; case 1: r = r + p3; break; case 2: b = b ^ t; default: u = u - 1u; }
  b = (((g[a & 15u] - p3) ? ((unsigned)((int)p6 == (int)(unsigned)c)) : ((unsigned)(g[a & 15u] > p2))) + ((p3 / (r | 1u)) << ((p1 | g[a & 15u]) & 31u)));
  a = (((unsigned)(char)t) << (((unsigned)((int)(p2 >> (r & 31u)) >> (int)((r + g[a & 15u]) & 31u))) & 31u));
  r = (((unsigned)i / ((g[a & 15u] >> (g[a & 15u] & 31u)) | 1u)) + t);
  g[(p5 % (p2 | 1u)) & 15u] = ((((unsigned)c / (p0 | 1u)) % ((p2 / (g[3] | 1u)) | 1u)) | (((unsigned)(char)p2) ? p0 : (p6 ? p2 : t)));
  if (((r | (unsigned)c) + (p0 & p1))) { if (((s.a[1] - a) + (unsigned)i)) { r = ((((unsigned)((unsigned)i == p2)) - ((unsigned)c ? p0 : u)) & p0); } else { t = (b ^ ((4294967295u & p4) + (u / (b | 1u)))); } } else { a = (((u - (unsigned)i) << ((a | p0) & 31u)) & ((p6 | a) << ((p6 >> (u & 31u)) & 31u))); }
  for (i = 0; i < 4; i++) { a = a; t = t + t; }
  for (i = 0; i < 2; i++) { a = ((g[3] + a) << ((s.a[1] | p3) & 31u)); t = t + p3; }
  if (((p3 - (unsigned)i) % ((s.a[1] << (r & 31u)) | 1u))) { if (((p6 | g[a & 15u]) & ((unsigned)((int)p0 >> (int)(p0 & 31u))))) { a = (((s.a[1] ? b : g[3]) >> ((p5 | g[a & 15u]) & 31u)) ^ (((unsigned)((int)p5 >> (int)(p2 & 31u))) | ((unsigned)c ? p0 : p2))); } else { b = (((p6 << (u & 31u)) & (b - r)) << (((g[3] << (g[a & 15u] & 31u)) ^ (2u % (g[a & 15u] | 1u))) & 31u)); } } else { s.a[(p5 ? p0 : t) & 3u] = ((unsigned)(char)(p5 ^ r)); s.c = (char)t; w = s; t = t + w.a[(r % (p5 | 1u)) & 3u] + (unsigned)w.c; s = w; }
  if (((unsigned)(p4 >= (p1 * b)))) { s.a[(b - r) & 3u] = ((g[a & 15u] / (t | 1u)) + ((unsigned)i + p5)); s.c = (char)t; w = s; t = t + w.a[(p2 % ((unsigned)i | 1u)) & 3u] + (unsigned)w.c; s = w; } else { u = (((p0 & s.a[1]) / (p2 | 1u)) - p1); }
  return t ^ a ^ b ^ u ^ r;
}
unsigned f1(register unsigned p0, unsigned p1, unsigned p2, unsigned p3, unsigned p4) {
  unsigned a; unsigned b; unsigned t; unsigned u; register unsigned r; char c; int i;
  a = p0; b = p1; t = 0u; u = 1u; r = 2u; c = 0; i = 0;
  switch ((int)((p0 ^ g[3]) & 3u)) { case 0: a = a + 1u; case 1: r = r + ((p4 / (p1 | 1u)) << (((unsigned)((int)u >> (int)(a & 31u))) & 31u)); break; case 2: b = b ^ t; default: u = u - 1u; }
  s.a[(p3 % (u | 1u)) & 3u] = ((unsigned)(char)((unsigned)i >> (g[3] & 31u))); s.c = (char)t; w = s; t = t + w.a[((unsigned)((int)p3 > (int)p3)) & 3u] + (unsigned)w.c; s = w;
  b = ((unsigned)((int)((a ? 0u : g[3]) + (p0 & r)) < (int)((p4 ^ g[3]) % ((p0 & u) | 1u))));
  a = (((unsigned)((int)(p3 << (p3 & 31u)) > (int)(2147483648u ^ g[a & 15u]))) / (((unsigned)((int)((unsigned)((int)3u >> (int)(b & 31u))) >> (int)((a % ((unsigned)i | 1u)) & 31u))) | 1u));
  switch ((int)(((unsigned)((int)3283489761u < (int)p1)) & 3u)) { case 0: a = a + 1u; case 1: r = r + (((unsigned)(char)(unsigned)c) << (b & 31u)); break; case 2: b = b ^ t; default: u = u - 1u; }
  if (((unsigned)((int)((unsigned)((int)(unsigned)c <= (int)p1)) <= (int)(p2 | p3)))) { g[((unsigned)((int)p1 >> (int)(a & 31u))) & 15u] = (((p0 | p1) ^ ((unsigned)((int)p0 >> (int)(p1 & 31u)))) - ((g[a & 15u] - p1) ? ((unsigned)(char)g[3]) : p0)); } else { s.a[p2 & 3u] = ((p1 >> ((unsigned)i & 31u)) ? (p2 & a) : (p0 - r)); s.c = (char)t; w = s; t = t + w.a[((unsigned)(char)g[a & 15u]) & 3u] + (unsigned)w.c; s = w; }
  u = (((p1 % (p0 | 1u)) << ((p1 ^ p3) & 31u)) % (((g[a & 15u] / (t | 1u)) * (g[a & 15u] % (g[3] | 1u))) | 1u));
  if (((a + 255u) + (s.a[1] ? p4 : u))) { for (i = 0; i < 5; i++) { a = ((p2 ? p1 : p4) ^ (r | (unsigned)c)); t = t + p0; } } else { r = ((unsigned)((int)(((unsigned)(char)s.a[1]) % ((s.a[1] & a) | 1u)) == (int)((3u & b) | ((unsigned)((int)b == (int)(unsigned)i))))); }
  if ((((unsigned)((int)(unsigned)i >> (int)((unsigned)c & 31u))) >> ((2147483648u + (unsigned)i) & 31u))) { g[7u & 15u] = ((unsigned)(((u + a) ^ ((unsigned)((int)t >> (int)((unsigned)c & 31u)))) || ((a - (unsigned)i) - (t % (g[a & 15u] | 1u))))); } else { b = (((unsigned)(char)(unsigned)c) / (u | 1u)); }
  a = (((s.a[1] - s.a[1]) & (p2 << (p1 & 31u))) << ((((unsigned)c - r) + (a - s.a[1])) & 31u));
  b = (((unsigned)((int)((unsigned)((unsigned)i >= (unsigned)c)) != (int)((unsigned)(char)p1))) ? (t * (g[3] & b)) : (((unsigned)c * p4) / ((p1 ^ a) | 1u)));
  t = t + f0((s.a[1] & p3), (u * p3), ((unsigned)((int)g[3] != (int)b)), s.a[1], (g[a & 15u] - p4), (1u ^ r), (g[a & 15u] >> (p0 & 31u)));
  return t ^ a ^ b ^ u ^ r;
}
int main(void) { int i; unsigned t; t = 0u; for (i = 0; i < 40; i++) { t = t * 3u + f1((unsigned)i, t, 15u, 79u, 82u); putchar((int)(t & 63u) + 32); } num(t); return (int)(t & 127u); }
