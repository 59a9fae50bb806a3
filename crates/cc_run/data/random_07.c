void num(unsigned n) { if (n >= 10u) num(n / 10u); putchar((int)(n % 10u) + 48); }
void show(int n) { if (n < 0) { putchar('-'); num(-(unsigned)n); } else num((unsigned)n); putchar(10); }
unsigned g[16]; struct m { char c; unsigned a[4]; char d; } s, w;
unsigned f0(unsigned p0, register unsigned p1, unsigned p2) {
  unsigned a; unsigned b; unsigned t; unsigned u; register unsigned r; char c; int i;
  a = p0; b = p1; t = 0u; u = 1u; r = 2u; c = 0; i = 0;
  s.a[u & 3u] = u; s.c = (char)t; w = s; t = t + w.a[b & 3u] + (unsigned)w.c; s = w;
  g[(a | t) & 15u] = (unsigned)c;
  g[(u | s.a[1]) & 15u] = ((unsigned)((int)((b / (t | 1u)) | ((unsigned)((unsigned)c != p1))) >> (int)(((unsigned)(char)b) & 31u)));
  switch ((int)(((unsigned)((int)g[3] <= (int)u)) & 3u)) { case 0: a = a + 1u; case 1: r = r + 255u; break; case 2: b = b ^ t; default: u = u - 1u; }
  switch ((int)(r & 3u)) { case 0: a = a + 1u; case 1: r = r + ((unsigned)((p0 % (t | 1u)) < u)); break; case 2: b = b ^ t; default: u = u - 1u; }
  switch ((int)((t | p1) & 3u)) { case 0: a = a + 1u; case 1: r = r + (((unsigned)((int)b > (int)b)) - ((unsigned)c & (unsigned)c)); break; case 2: b = b ^ t; default: u = u - 1u; }
  if (((unsigned)((int)(s.a[1] + t) >> (int)((a % (a | 1u)) & 31u)))) { s.a[((unsigned)i | u) & 3u] = (((unsigned)((int)s.a[1] != (int)u)) - ((unsigned)((int)b >> (int)(s.a[1] & 31u)))); s.c = (char)t; w = s; t = t + w.a[(s.a[1] ? p0 : b) & 3u] + (unsigned)w.c; s = w; } else { u = (g[a & 15u] >> (((t | 2147483648u) - ((unsigned)((int)a >> (int)(3u & 31u)))) & 31u)); }
  t = ((((unsigned)(p1 < t)) >> ((t + p1) & 31u)) / ((((unsigned)c ? u : (unsigned)i) >> (((unsigned)i | r) & 31u)) | 1u));
  g[(s.a[1] & u) & 15u] = p2;
  t = u;
  u = ((((unsigned)(u != p1)) / (p1 | 1u)) + b);
  return t ^ a ^ b ^ u ^ r;
}
unsigned f1(unsigned p0, unsigned p1, unsigned p2, unsigned p3, unsigned p4, unsigned p5, unsigned p6, unsigned p7) {
  unsigned a; unsigned b; unsigned t; unsigned u; register unsigned r; char c; int i;
  a = p0; b = p1; t = 0u; u = 1u; r = 2u; c = 0; i = 0;
  c = (char)((s.a[1] ? (unsigned)i : t) % (a | 1u)); t = t ^ (unsigned)c;
  for (i = 0; i < 5; i++) { u = (((unsigned)i / ((unsigned)c | 1u)) + (g[3] + (unsigned)i)); t = t + a; }
  s.a[(p4 * s.a[1]) & 3u] = (((unsigned)((int)a >> (int)(b & 31u))) | (unsigned)c); s.c = (char)t; w = s; t = t + w.a[(g[3] << ((unsigned)i & 31u)) & 3u] + (unsigned)w.c; s = w;
  for (i = 0; i < 4; i++) { u = ((t - g[a & 15u]) << ((r * (unsigned)c) & 31u)); t = t + s.a[1]; }
  r = (((unsigned)((int)(a ? r : r) >= (int)p2)) * ((p4 / (p7 | 1u)) + (unsigned)i));
  g[(t + g[a & 15u]) & 15u] = (((p5 * p5) << ((u << (t & 31u)) & 31u)) >> (((g[a & 15u] * (unsigned)i) - p1) & 31u));
  switch ((int)((p3 ? a : p4) & 3u)) { case 0: a = a + 1u; case 1: r = r + (p0 >> ((p1 + 255u) & 31u)); break; case 2: b = b ^ t; default: u = u - 1u; }
  for (i = 0; i < 5; i++) { u = ((unsigned)i % ((p2 >> (b & 31u)) | 1u)); t = t + p3; }
  switch ((int)((p7 * p3) & 3u)) { case 0: a = a + 1u; case 1: r = r + ((p7 % (g[3] | 1u)) % ((p4 - g[a & 15u]) | 1u)); break; case 2: b = b ^ t; default: u = u - 1u; }
  b = (((unsigned)((int)(p2 * (unsigned)i) >> (int)((p2 ? p6 : (unsigned)i) & 31u))) | ((unsigned)((p5 | p2) > ((unsigned)(char)r))));
  a = ((((unsigned)i << (t & 31u)) | (a & s.a[1])) / ((a / (((unsigned)(p3 < p5)) | 1u)) | 1u));
  t = t + f0(((unsigned)((unsigned)c >= p5)), ((unsigned)i | p5), (b / (a | 1u)));
  return t ^ a ^ b ^ u ^ r;
}
unsigned f2(unsigned p0, unsigned p1, unsigned p2, register unsigned p3, unsigned p4, unsigned p5) {
  unsigned a; unsigned b; unsigned t; register unsigned u; register unsigned r; char c; int i;
  a = p0; b = p1; t = 0u; u = 1u; r = 2u; c = 0; i = 0;
  for (i = 0; i < 2; i++) { a = (((unsigned)(char)p2) >> ((p1 & g[a & 15u]) & 31u)); t = t + p1; }
  if (((unsigned)(p1 < ((unsigned)(char)p5)))) { c = (char)g[a & 15u]; t = t ^ (unsigned)c; } else { r = (((a >> (u & 31u)) * ((unsigned)(char)g[3])) % ((((unsigned)((int)p3 > (int)p0)) & (t ^ p5)) | 1u)); }
  b = (unsigned)c;
  if (((unsigned)((int)(g[3] % ((unsigned)c | 1u)) >> (int)(((unsigned)i - 4294967295u) & 31u)))) { u = (s.a[1] | p1); } else { u = (b & (g[a & 15u] | ((unsigned)c >> (p5 & 31u)))); }
  u = t;
  u = ((unsigned)(((a + g[a & 15u]) << ((p2 + r) & 31u)) <= p1));
  t = (((p5 + p2) & (p2 + g[a & 15u])) | ((b + p0) & ((unsigned)(char)s.a[1])));
  switch ((int)((p4 - t) & 3u)) { case 0: a = a + 1u; case 1: r = r + ((unsigned)((int)r >> (int)(t & 31u))); break; case 2: b = b ^ t; default: u = u - 1u; }
  t = t + f1(u, ((unsigned)i ? s.a[1] : p0), (p0 ? p1 : p2), (b | 4294967295u), ((unsigned)i & t), (p0 - s.a[1]), ((unsigned)(s.a[1] != a)), ((unsigned)((int)(unsigned)c >> (int)(p1 & 31u))));
  return t ^ a ^ b ^ u ^ r;
}
int main(void) { int i; unsigned t; t = 0u; for (i = 0; i < 40; i++) { t = t * 3u + f2((unsigned)i, t, 79u, 60u, 20u, 17u); putchar((int)(t & 63u) + 32); } num(t); return (int)(t & 127u); }
