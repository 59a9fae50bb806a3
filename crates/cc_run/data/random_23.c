void num(unsigned n) { if (n >= 10u) num(n / 10u); putchar((int)(n % 10u) + 48); }
void show(int n) { if (n < 0) { putchar('-'); num(-(unsigned)n); } else num((unsigned)n); putchar(10); }
unsigned g[16]; struct m { char c; unsigned a[4]; char d; } s, w;
unsigned f0(unsigned p0, unsigned p1, register unsigned p2, unsigned p3, unsigned p4, unsigned p5, register unsigned p6, unsigned p7) {
  unsigned a; unsigned b; unsigned t; unsigned u; register unsigned r; char c; int i;
  a = p0; b = p1; t = 0u; u = 1u; r = 2u; c = 0; i = 0;
  g[(p5 * p3) & 15u] = (((unsigned)((int)(p0 ^ g[3]) >> (int)(((unsigned)(char)p7) & 31u))) + p0);
  for (i = 0; i < 4; i++) { u = ((unsigned)(char)(u % (p0 | 1u))); t = t + a; }
  b = ((((unsigned)(char)a) + g[a & 15u]) / (u | 1u));
  c = (char)((s.a[1] >> (p3 & 31u)) & (a ^ p7)); t = t ^ (unsigned)c;
  g[(p5 * a) & 15u] = (((unsigned)((int)(p5 - t) >= (int)(b ? p0 : (unsigned)i))) | (s.a[1] ? (p2 % (p1 | 1u)) : p4));
  switch ((int)(g[a & 15u] & 3u)) { case 0: a = a + 1u; case 1: r = r + ((p1 + g[3]) ^ p5); break; case 2: b = b ^ t; default: u = u - 1u; }
  if (((p1 & g[a & 15u]) * ((unsigned)c / (p2 | 1u)))) { u = ((((unsigned)(p0 && g[3])) + (p2 >> (p5 & 31u))) | ((unsigned)((p3 & a) || (p1 % (t | 1u))))); } else { a = (((unsigned)c << ((p7 << (s.a[1] & 31u)) & 31u)) * ((unsigned)i | b)); }
  if (((unsigned)((g[a & 15u] * r) != (a & t)))) { if (((r - g[a & 15u]) + (u * p3))) { r = (((g[a & 15u] | 0u) & (t + b)) >> (((p0 % (p5 | 1u)) ^ (a * b)) & 31u)); } else { a = (((p7 & (unsigned)i) ^ ((unsigned)c * p5)) >> (((unsigned)((a | s.a[1]) >= g[a & 15u])) & 31u)); } } else { r = ((((unsigned)(s.a[1] != p2)) >> ((u - (unsigned)c) & 31u)) * (((unsigned)((int)p4 >> (int)(b & 31u))) ^ (p7 + p5))); }
  switch ((int)((g[a & 15u] + 65535u) & 3u)) { case 0: a = a + 1u; case 1: r = r + (((unsigned)i ? u : a) % (((unsigned)c / (t | 1u)) | 1u)); break; case 2: b = b ^ t; default: u = u - 1u; }
  u = ((p1 ^ p3) | ((g[3] + p5) ? (r + g[a & 15u]) : (unsigned)i));
  return t ^ a ^ b ^ u ^ r;
}
unsigned f1(unsigned p0, unsigned p1, register unsigned p2, register unsigned p3, register unsigned p4) {
  unsigned a; unsigned b; unsigned t; unsigned u; register unsigned r; char c; int i;
  a = p0; b = p1; t = 0u; u = 1u; r = 2u; c = 0; i = 0;
  s.a[(g[a & 15u] * (unsigned)c) & 3u] = ((p2 | t) / ((b + p2) | 1u)); s.c = (char)t; w = s; t = t + w.a[(p2 / (r | 1u)) & 3u] + (unsigned)w.c; s = w;
  r = ((unsigned)((int)((g[a & 15u] * p4) ? ((unsigned)((int)p3 == (int)a)) : (s.a[1] ? p4 : p4)) >> (int)(((p1 - t) / ((u | r) | 1u)) & 31u)));
  g[(u | p3) & 15u] = ((((unsigned)((int)g[3] == (int)u)) ^ ((unsigned)c & r)) & (((unsigned)((int)p1 >> (int)(r & 31u))) << ((u >> (a & 31u)) & 31u)));
  c = (char)((t * (unsigned)c) + (unsigned)i); t = t ^ (unsigned)c;
  switch ((int)(((unsigned)(g[a & 15u] > 31u)) & 3u)) { case 0: a = a + 1u; case 1: r = r + t; break; case 2: b = b ^ t; default: u = u - 1u; }
  for (i = 0; i < 2; i++) { a = ((3u | p1) ^ p4); t = t + p2; }
  s.a[(p4 ^ (unsigned)c) & 3u] = ((p1 - p4) + ((unsigned)c / (7u | 1u))); s.c = (char)t; w = s; t = t + w.a[7u & 3u] + (unsigned)w.c; s = w;
  t = t + f0(((unsigned)((int)g[a & 15u] >> (int)(t & 31u))), t, ((unsigned)(char)r), 0u, ((unsigned)((int)a >> (int)(t & 31u))), ((unsigned)i / (p4 | 1u)), p0, (p0 << (r & 31u)));
  return t ^ a ^ b ^ u ^ r;
}
unsigned f2(register unsigned p0, unsigned p1, register unsigned p2, register unsigned p3, unsigned p4) {
  unsigned a; unsigned b; unsigned t; unsigned u; register unsigned r; char c; int i;
  a = p0; b = p1; t = 0u; u = 1u; r = 2u; c = 0; i = 0;
  c = (char)(((unsigned)((unsigned)i && p0)) + (b << (g[3] & 31u))); t = t ^ (unsigned)c;
  s.a[((unsigned)(char)a) & 3u] = ((unsigned)((int)(p2 >> (p1 & 31u)) <= (int)(2u | (unsigned)i))); s.c = (char)t; w = s; t = t + w.a[(g[3] * g[3]) & 3u] + (unsigned)w.c; s = w;
  for (i = 0; i < 5; i++) { r = (((unsigned)((int)u >> (int)(g[a & 15u] & 31u))) - ((unsigned)(char)p2)); t = t + u; }
  t = r;
  if ((t % (((unsigned)i | p0) | 1u))) { for (i = 0; i < 4; i++) { a = ((s.a[1] ^ p2) & (s.a[1] << (t & 31u))); t = t + a; } } else { g[(t ^ (unsigned)c) & 15u] = p2; }
  for (i = 0; i < 5; i++) { a = ((g[3] + b) * (255u % ((unsigned)c | 1u))); t = t + b; }
  a = b;
  g[((unsigned)c - r) & 15u] = (((unsigned)(char)(g[a & 15u] + r)) ^ (((unsigned)((int)a < (int)u)) ? (2147483648u >> (4294967295u & 31u)) : (r * p2)));
  a = (((unsigned)((int)((unsigned)(char)a) >> (int)(a & 31u))) - ((a ? p1 : g[a & 15u]) ? ((unsigned)i % (b | 1u)) : p1));
  b = r;
  for (i = 0; i < 5; i++) { u = ((unsigned)((p2 << (p0 & 31u)) || ((unsigned)(p3 && p4)))); t = t + g[3]; }
  t = t + f1(((unsigned)(char)p4), r, (r - r), (u >> (s.a[1] & 31u)), (255u % (p1 | 1u)));
  return t ^ a ^ b ^ u ^ r;
}
int main(void) { int i; unsigned t; t = 0u; for (i = 0; i < 40; i++) { t = t * 3u + f2((unsigned)i, t, 49u, 61u, 70u); putchar((int)(t & 63u) + 32); } num(t); return (int)(t & 127u); }
