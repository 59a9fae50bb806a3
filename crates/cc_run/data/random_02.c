void num(unsigned n) { if (n >= 10u) num(n / 10u); putchar((int)(n % 10u) + 48); }
void show(int n) { if (n < 0) { putchar('-'); num(-(unsigned)n); } else num((unsigned)n); putchar(10); }
unsigned g[16]; struct m { char c; unsigned a[4]; char d; } s, w;
unsigned f0(unsigned p0, unsigned p1) {
  unsigned a; unsigned b; unsigned t; unsigned u; register unsigned r; char c; int i;
  a = p0; b = p1; t = 0u; u = 1u; r = 2u; c = 0; i = 0;
  if (((g[a & 15u] + r) + ((unsigned)((int)t >> (int)(u & 31u))))) { t = ((unsigned)((int)(((unsigned)(char)4294967295u) ^ ((unsigned)((int)r <= (int)(unsigned)i))) >> (int)(((unsigned)(char)((unsigned)(char)r)) & 31u))); } else { t = (((g[a & 15u] / (g[3] | 1u)) ^ (b / (a | 1u))) * ((unsigned)((int)(p1 - a) >> (int)((p0 + s.a[1]) & 31u)))); }
  switch ((int)(((unsigned)c + u) & 3u)) { case 0: a = a + 1u; case 1: r = r + ((g[3] | r) >> ((a - t) & 31u)); break; case 2: b = b ^ t; default: u = u - 1u; }
  u = (((u & p0) / ((g[a & 15u] + p1) | 1u)) ^ (u | r));
  c = (char)(((unsigned)((unsigned)i || p0)) + (p1 & p0)); t = t ^ (unsigned)c;
  t = (((u ? (unsigned)c : a) + (t * b)) & p0);
  u = ((unsigned)(char)(unsigned)i);
  for (i = 0; i < 5; i++) { b = (((unsigned)(u >= s.a[1])) | ((unsigned)((int)p1 >> (int)(g[a & 15u] & 31u)))); t = t + a; }
  switch ((int)((s.a[1] % (b | 1u)) & 3u)) { case 0: a = a + 1u; case 1: r = r + ((a & p1) / ((p1 - (unsigned)i) | 1u)); break; case 2: b = b ^ t; default: u = u - 1u; }
  if (((r + 3u) & (2u ? g[3] : s.a[1]))) { if ((p0 ^ ((unsigned)i - s.a[1]))) { u = ((480662202u % (((unsigned)((int)b >> (int)(t & 31u))) | 1u)) ? (g[3] << (((unsigned)c << (p0 & 31u)) & 31u)) : (unsigned)i); } else { u = ((unsigned)(char)((unsigned)(char)(t ^ 3u))); } } else { for (i = 0; i < 2; i++) { r = g[a & 15u]; t = t + (unsigned)i; } }
  if (((t - r) * (u % (a | 1u)))) { for (i = 0; i < 2; i++) { b = (((unsigned)c % (p0 | 1u)) ^ ((unsigned)((int)s.a[1] == (int)(unsigned)i))); t = t + s.a[1]; } } else { c = (char)((unsigned)(char)((unsigned)((int)b == (int)p0))); t = t ^ (unsigned)c; }
  return t ^ a ^ b ^ u ^ r;
}
unsigned f1(unsigned p0, unsigned p1, unsigned p2, unsigned p3) {
  unsigned a; unsigned b; unsigned t; register unsigned u; register unsigned r; char c; int i;
  a = p0; b = p1; t = 0u; u = 1u; r = 2u; c = 0; i = 0;
  t = ((unsigned)(char)b);
  g[p0 & 15u] = (((r - g[a & 15u]) & (b << ((unsigned)i & 31u))) ^ (((unsigned)c | g[a & 15u]) / (a | 1u)));
  g[(p1 >> (4105228889u & 31u)) & 15u] = (((p0 % (r | 1u)) & (u ^ (unsigned)i)) << (((p3 * (unsigned)c) & (p0 ? p3 : b)) & 31u));
  g[(p2 + g[3]) & 15u] = (((r | t) >> ((p2 - r) & 31u)) % ((((unsigned)((int)p0 > (int)u)) >> (((unsigned)((int)s.a[1] <= (int)g[a & 15u])) & 31u)) | 1u));
  g[(g[a & 15u] | u) & 15u] = ((unsigned)((int)((p1 << ((unsigned)i & 31u)) ? ((unsigned)(char)a) : a) >> (int)(((g[a & 15u] ^ (unsigned)i) ? p0 : ((unsigned)((int)p2 >> (int)(65535u & 31u)))) & 31u)));
  a = ((unsigned)((((unsigned)c + 0u) / ((b / (u | 1u)) | 1u)) < (p3 * (t / (p1 | 1u)))));
  r = ((unsigned)(((unsigned)(char)(a & s.a[1])) || ((u ? r : g[3]) | (g[a & 15u] & (unsigned)c))));
  u = ((unsigned)((int)((unsigned)((int)(s.a[1] / (r | 1u)) >> (int)(((unsigned)((int)a < (int)b)) & 31u))) >> (int)(((unsigned)((int)(p1 >> ((unsigned)c & 31u)) >> (int)(((unsigned)(char)a) & 31u))) & 31u)));
  a = 1742883710u;
  u = (((b << (g[3] & 31u)) >> (((unsigned)((int)s.a[1] >> (int)((unsigned)c & 31u))) & 31u)) - (p0 ^ (p1 & b)));
  t = t + f0((g[3] % (a | 1u)), (p3 ? s.a[1] : 65535u));
  return t ^ a ^ b ^ u ^ r;
}
int main(void) { int i; unsigned t; t = 0u; for (i = 0; i < 40; i++) { t = t * 3u + f1((unsigned)i, t, 61u, 68u); putchar((int)(t & 63u) + 32); } num(t); return (int)(t & 127u); }
