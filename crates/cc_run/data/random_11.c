void num(unsigned n) { if (n >= 10u) num(n / 10u); putchar((int)(n % 10u) + 48); }
void show(int n) { if (n < 0) { putchar('-'); num(-(unsigned)n); } else num((unsigned)n); putchar(10); }
unsigned g[16]; struct m { char c; unsigned a[4]; char d; } s, w;
unsigned f0(register unsigned p0, unsigned p1, unsigned p2, register unsigned p3, register unsigned p4, unsigned p5, unsigned p6, register unsigned p7) {
  unsigned a; unsigned b; unsigned t; register unsigned u; register unsigned r; char c; int i;
  a = p0; b = p1; t = 0u; u = 1u; r = 2u; c = 0; i = 0;
  a = (g[3] | (65535u & (a / ((unsigned)i | 1u))));
  t = ((u + ((unsigned)((int)g[a & 15u] >= (int)p2))) / (((p0 % (s.a[1] | 1u)) - (g[3] ^ g[a & 15u])) | 1u));
  c = (char)(((unsigned)c | p2) + ((unsigned)i + p2)); t = t ^ (unsigned)c;
  b = (p4 / (r | 1u));
  c = (char)((p7 / (t | 1u)) & ((unsigned)i | p3)); t = t ^ (unsigned)c;
  if ((g[a & 15u] | (s.a[1] * (unsigned)c))) { a = ((unsigned)(char)((t - p0) | (p5 & a))); } else { r = p4; }
  switch ((int)((t & u) & 3u)) { case 0: a = a + 1u; case 1: r = r + ((p1 - (unsigned)i) ? (g[a & 15u] & p4) : (p3 >> (3u & 31u))); break; case 2: b = b ^ t; default: u = u - 1u; }
  u = (((unsigned)((int)(p1 ? p4 : (unsigned)i) < (int)(p4 - s.a[1]))) & (((unsigned)((int)g[a & 15u] >> (int)(a & 31u))) ^ (p1 & t)));
  u = (((p2 * p7) >> ((p0 + p5) & 31u)) | ((p6 - t) | (p2 << (r & 31u))));
  if (((p2 | p2) & (t - (unsigned)i))) { switch ((int)(p3 & 3u)) { case 0: a = a + 1u; case 1: r = r + (r % ((p5 << (u & 31u)) | 1u)); break; case 2: b = b ^ t; default: u = u - 1u; } } else { s.a[(p2 | g[3]) & 3u] = ((p0 - g[a & 15u]) | (t & p3)); s.c = (char)t; w = s; t = t + w.a[(a * p1) & 3u] + (unsigned)w.c; s = w; }
  return t ^ a ^ b ^ u ^ r;
}
unsigned f1(register unsigned p0, register unsigned p1) {
  unsigned a; unsigned b; unsigned t; register unsigned u; register unsigned r; char c; int i;
  a = p0; b = p1; t = 0u; u = 1u; r = 2u; c = 0; i = 0;
  g[(t ? 0u : u) & 15u] = (((g[3] * (unsigned)i) * ((unsigned)((int)t >> (int)(p1 & 31u)))) << (((1u - (unsigned)c) | (p1 >> (g[3] & 31u))) & 31u));
  for (i = 0; i < 5; i++) { b = (b ^ r); t = t + r; }
  for (i = 0; i < 3; i++) { r = ((g[a & 15u] ? 1u : (unsigned)c) | (b | g[3])); t = t + (unsigned)i; }
  c = (char)((t | s.a[1]) ^ ((unsigned)i & r)); t = t ^ (unsigned)c;
  if ((((unsigned)c << (g[a & 15u] & 31u)) << (p1 & 31u))) { for (i = 0; i < 2; i++) { b = (((unsigned)(char)(unsigned)c) ? (u / (g[a & 15u] | 1u)) : ((unsigned)i - s.a[1])); t = t + p1; } } else { s.a[(u | r) & 3u] = ((unsigned)((int)(u - p0) >> (int)((r + (unsigned)c) & 31u))); s.c = (char)t; w = s; t = t + w.a[1u & 3u] + (unsigned)w.c; s = w; }
  b = ((unsigned)((int)((unsigned)((int)(s.a[1] >> (p1 & 31u)) >> (int)(((unsigned)c ^ 4294967295u) & 31u))) >> (int)((((unsigned)((int)g[3] >> (int)((unsigned)c & 31u))) - ((unsigned)(char)r)) & 31u)));
  g[((unsigned)c >> (4294967295u & 31u)) & 15u] = ((unsigned)(char)((unsigned)((int)(a / ((unsigned)i | 1u)) == (int)(r + (unsigned)i))));
  for (i = 0; i < 5; i++) { r = ((p0 ? g[3] : b) >> (t & 31u)); t = t + u; }
  u = (((unsigned)((p1 % (t | 1u)) >= (a + g[3]))) >> (((g[3] ? r : p0) * (u | (unsigned)i)) & 31u));
  t = t + f0((p1 * t), (unsigned)i, t, (p1 & p1), 0u, (a - s.a[1]), (b << (p0 & 31u)), ((unsigned)((int)g[a & 15u] >> (int)(p0 & 31u))));
  return t ^ a ^ b ^ u ^ r;
}
unsigned f2(unsigned p0, unsigned p1, register unsigned p2, register unsigned p3, unsigned p4) {
  unsigned a; unsigned b; unsigned t; unsigned u; register unsigned r; char c; int i;
  a = p0; b = p1; t = 0u; u = 1u; r = 2u; c = 0; i = 0;
  u = ((((unsigned)((int)p2 >= (int)g[a & 15u])) - (p2 >> (u & 31u))) & (((unsigned)((int)s.a[1] >= (int)p3)) * (g[a & 15u] >> (255u & 31u))));
  u = (((p0 - p2) / ((g[3] << (r & 31u)) | 1u)) >> (((r ^ p3) * (u | t)) & 31u));
  t = ((((unsigned)((int)g[3] >> (int)(b & 31u))) | (p3 + p2)) | ((b % (255u | 1u)) >> ((u ? p3 : p4) & 31u)));
  for (i = 0; i < 5; i++) { r = ((p0 << (p4 & 31u)) >> (((unsigned)((int)u == (int)p3)) & 31u)); t = t + p2; }
  b = ((unsigned)((p4 + g[3]) >= ((unsigned)(char)((unsigned)((int)s.a[1] <= (int)p4)))));
  g[(p0 & p4) & 15u] = (unsigned)i;
  b = (((unsigned)((int)(s.a[1] & t) >> (int)(((unsigned)(char)(unsigned)c) & 31u))) << (((b % (p2 | 1u)) + g[3]) & 31u));
  t = t + f1(((unsigned)((int)g[3] >> (int)(p4 & 31u))), (s.a[1] % (b | 1u)));
  return t ^ a ^ b ^ u ^ r;
}
int main(void) { int i; unsigned t; t = 0u; for (i = 0; i < 40; i++) { t = t * 3u + f2((unsigned)i, t, 25u, 76u, 91u); putchar((int)(t & 63u) + 32); } num(t); return (int)(t & 127u); }
