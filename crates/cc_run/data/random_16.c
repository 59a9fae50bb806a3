void num(unsigned n) { if (n >= 10u) num(n / 10u); putchar((int)(n % 10u) + 48); }
void show(int n) { if (n < 0) { putchar('-'); num(-(unsigned)n); } else num((unsigned)n); putchar(10); }
unsigned g[16]; struct m { char c; unsigned a[4]; char d; } s, w;
unsigned f0(unsigned p0, unsigned p1, unsigned p2, unsigned p3, unsigned p4) {
  unsigned a; unsigned b; unsigned t; unsigned u; register unsigned r; char c; int i;
  a = p0; b = p1; t = 0u; u = 1u; r = 2u; c = 0; i = 0;
  if (((unsigned)i / (p4 | 1u))) { if ((((unsigned)(31u < (unsigned)c)) << ((p1 * (unsigned)c) & 31u))) { u = (((p2 ? p4 : a) * (p2 - t)) ^ p2); } else { a = (((unsigned)((int)(a % (r | 1u)) != (int)((unsigned)(p4 < b)))) - (((unsigned)((int)u > (int)p3)) % ((s.a[1] / (31u | 1u)) | 1u))); } } else { c = (char)((unsigned)((p4 ? 4294967295u : t) <= p0)); t = t ^ (unsigned)c; }
  t = ((unsigned)((int)a != (int)((a - s.a[1]) / ((g[a & 15u] % (p4 | 1u)) | 1u))));
  a = (((u | g[a & 15u]) << ((t - r) & 31u)) | (((unsigned)(p2 >= p2)) + ((unsigned)(char)p1)));
  g[(a >> (s.a[1] & 31u)) & 15u] = (((unsigned)((int)a == (int)(b | t))) + ((t << ((unsigned)c & 31u)) + ((unsigned)(char)(unsigned)i)));
  t = ((unsigned)((int)((unsigned)(char)(g[a & 15u] | r)) != (int)((t ^ u) * (65535u ^ t))));
  c = (char)((g[a & 15u] ? s.a[1] : p2) >> (((unsigned)(p0 >= p0)) & 31u)); t = t ^ (unsigned)c;
  switch ((int)(a & 3u)) { case 0: a = a + 1u; case 1: r = r + ((unsigned)((s.a[1] * g[3]) < (p3 ? r : p3))); break; case 2: b = b ^ t; default: u = u - 1u; }
  c = (char)(((unsigned)(g[a & 15u] >= u)) * ((unsigned)((int)b != (int)p0))); t = t ^ (unsigned)c;
  return t ^ a ^ b ^ u ^ r;
}
unsigned f1(unsigned p0, unsigned p1, unsigned p2, register unsigned p3, unsigned p4, unsigned p5, register unsigned p6, unsigned p7) {
  unsigned a; unsigned b; unsigned t; register unsigned u; register unsigned r; char c; int i;
  a = p0; b = p1; t = 0u; u = 1u; r = 2u; c = 0; i = 0;
  for (i = 0; i < 2; i++) { b = s.a[1]; t = t + (unsigned)i; }
  c = (char)((a * p0) << ((r << (g[3] & 31u)) & 31u)); t = t ^ (unsigned)c;
  g[((unsigned)(char)r) & 15u] = ((unsigned)((int)((t & b) << ((p1 << (s.a[1] & 31u)) & 31u)) >> (int)(((unsigned)(((unsigned)((int)p2 >> (int)(p2 & 31u))) > ((unsigned)(p7 && p2)))) & 31u)));
  r = ((unsigned)(char)((unsigned)((int)(u * p6) >> (int)((p3 & p3) & 31u))));
  b = ((unsigned)((int)((unsigned)((int)(p0 << (p1 & 31u)) <= (int)(r << (a & 31u)))) >> (int)((((unsigned)(char)31u) << (((unsigned)((int)t >> (int)((unsigned)i & 31u))) & 31u)) & 31u)));
  u = (((unsigned)(char)a) ? ((unsigned)((int)(p0 << (g[a & 15u] & 31u)) <= (int)(a << (p5 & 31u)))) : (((unsigned)c - p7) | (0u & g[a & 15u])));
  u = a;
  r = p1;
  r = (p4 | (((unsigned)((int)u >> (int)(0u & 31u))) ^ (p1 % (r | 1u))));
  g[((unsigned)c % (a | 1u)) & 15u] = (((p4 | p1) % ((p1 | (unsigned)c) | 1u)) >> ((((unsigned)((int)s.a[1] >> (int)(p0 & 31u))) | (t ? p1 : 2u)) & 31u));
  g[a & 15u] = u;
  t = t + f0((p5 << (p0 & 31u)), s.a[1], ((unsigned)i * g[a & 15u]), ((unsigned)(char)p6), (p7 | p0));
  return t ^ a ^ b ^ u ^ r;
}
unsigned f2(unsigned p0, unsigned p1, unsigned p2, unsigned p3, unsigned p4, register unsigned p5, unsigned p6, unsigned p7) {
  unsigned a; unsigned b; unsigned t; unsigned u; register unsigned r; char c; int i;
  a = p0; b = p1; t = 0u; u = 1u; r = 2u; c = 0; i = 0;
  s.a[b & 3u] = ((r << (b & 31u)) / ((p3 << (r & 31u)) | 1u)); s.c = (char)t; w = s; t = t + w.a[(p3 * p4) & 3u] + (unsigned)w.c; s = w;
  c = (char)((unsigned)((int)(g[3] >> (g[a & 15u] & 31u)) != (int)((unsigned)((int)t >> (int)((unsigned)c & 31u))))); t = t ^ (unsigned)c;
  switch ((int)((p1 + p3) & 3u)) { case 0: a = a + 1u; case 1: r = r + ((p4 - a) + ((unsigned)i + t)); break; case 2: b = b ^ t; default: u = u - 1u; }
  t = ((((unsigned)(char)a) + ((unsigned)((unsigned)c || p5))) & ((unsigned)(char)(p6 & t)));
  s.a[(p3 + b) & 3u] = ((r * p1) % (((unsigned)(p4 == p2)) | 1u)); s.c = (char)t; w = s; t = t + w.a[(r << (p7 & 31u)) & 3u] + (unsigned)w.c; s = w;
  for (i = 0; i < 3; i++) { b = r; t = t + g[3]; }
  t = t + f1((p1 / (p7 | 1u)), (g[3] ? (unsigned)i : p7), ((unsigned)((int)s.a[1] >> (int)(65535u & 31u))), r, (p5 & u), ((unsigned)c - 2u), (a ? p3 : t), p4);
  return t ^ a ^ b ^ u ^ r;
}
int main(void) { int i; unsigned t; t = 0u; for (i = 0; i < 40; i++) { t = t * 3u + f2((unsigned)i, t, 31u, 8u, 70u, 42u, 12u, 33u); putchar((int)(t & 63u) + 32); } num(t); return (int)(t & 127u); }
