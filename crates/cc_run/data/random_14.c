void num(unsigned n) { if (n >= 10u) num(n / 10u); putchar((int)(n % 10u) + 48); }
void show(int n) { if (n < 0) { putchar('-'); num(-(unsigned)n); } else num((unsigned)n); putchar(10); }
unsigned g[16]; struct m { char c; unsigned a[4]; char d; } s, w;
unsigned f0(register unsigned p0, register unsigned p1, register unsigned p2, unsigned p3, unsigned p4, register unsigned p5) {
  unsigned a; unsigned b; unsigned t; register unsigned u; register unsigned r; char c; int i;
  a = p0; b = p1; t = 0u; u = 1u; r = 2u; c = 0; i = 0;
  u = ((unsigned)((int)((1118419489u >> ((unsigned)i & 31u)) + ((unsigned)i | p4)) > (int)(((unsigned)((int)g[a & 15u] >> (int)(g[a & 15u] & 31u))) + (u << (u & 31u)))));
  c = (char)g[3]; t = t ^ (unsigned)c;
  s.a[(p3 << (p2 & 31u)) & 3u] = (((unsigned)((int)p1 >> (int)(p5 & 31u))) ? p4 : a); s.c = (char)t; w = s; t = t + w.a[(g[a & 15u] * 0u) & 3u] + (unsigned)w.c; s = w;
  s.a[((unsigned)((int)b >> (int)(a & 31u))) & 3u] = ((p1 - p2) % ((p3 >> (u & 31u)) | 1u)); s.c = (char)t; w = s; t = t + w.a[(unsigned)i & 3u] + (unsigned)w.c; s = w;
  switch ((int)(((unsigned)((int)p3 < (int)s.a[1])) & 3u)) { case 0: a = a + 1u; case 1: r = r + a; break; case 2: b = b ^ t; default: u = u - 1u; }
  g[((unsigned)((int)p3 >> (int)(p0 & 31u))) & 15u] = ((unsigned)((int)u >> (int)((p2 * (65535u - (unsigned)i)) & 31u)));
  s.a[u & 3u] = ((unsigned)((int)((unsigned)i << ((unsigned)c & 31u)) <= (int)((unsigned)(char)p0))); s.c = (char)t; w = s; t = t + w.a[((unsigned)(p2 > 255u)) & 3u] + (unsigned)w.c; s = w;
  return t ^ a ^ b ^ u ^ r;
}
unsigned f1(unsigned p0, unsigned p1, unsigned p2, unsigned p3, unsigned p4, unsigned p5, unsigned p6, unsigned p7) {
  unsigned a; unsigned b; unsigned t; unsigned u; register unsigned r; char c; int i;
  a = p0; b = p1; t = 0u; u = 1u; r = 2u; c = 0; i = 0;
  g[(t << (p1 & 31u)) & 15u] = (((unsigned)((int)((unsigned)((int)(unsigned)c >> (int)(p4 & 31u))) >> (int)(p7 & 31u))) * (unsigned)c);
  b = (((s.a[1] / (p3 | 1u)) * g[3]) | (p4 ^ t));
  g[p7 & 15u] = ((unsigned)((int)(t & (u * p5)) >= (int)((unsigned)((int)g[3] >> (int)((p7 | b) & 31u)))));
  g[(g[3] & p0) & 15u] = ((unsigned)(((unsigned)((g[3] / (s.a[1] | 1u)) >= (p2 + s.a[1]))) >= (r << ((p7 % (p4 | 1u)) & 31u))));
  u = ((unsigned)(char)((p2 & p0) % ((t >> (p4 & 31u)) | 1u)));
  t = t + f0((g[a & 15u] ? p5 : r), ((unsigned)c + p0), (p7 * p0), ((unsigned)(a > a)), ((unsigned)c ^ p7), ((unsigned)(char)(unsigned)c));
  return t ^ a ^ b ^ u ^ r;
}
int main(void) { int i; unsigned t; t = 0u; for (i = 0; i < 40; i++) { t = t * 3u + f1((unsigned)i, t, 24u, 62u, 86u, 95u, 27u, 65u); putchar((int)(t & 63u) + 32); } num(t); return (int)(t & 127u); }
