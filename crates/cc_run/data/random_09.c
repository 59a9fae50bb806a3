void num(unsigned n) { if (n >= 10u) num(n / 10u); putchar((int)(n % 10u) + 48); }
void show(int n) { if (n < 0) { putchar('-'); num(-(unsigned)n); } else num((unsigned)n); putchar(10); }
unsigned g[16]; struct m { char c; unsigned a[4]; char d; } s, w;
unsigned f0(unsigned p0, unsigned p1, unsigned p2, unsigned p3, register unsigned p4, unsigned p5) {
  unsigned a; unsigned b; unsigned t; register unsigned u; register unsigned r; char c; int i;
  a = p0; b = p1; t = 0u; u = 1u; r = 2u; c = 0; i = 0;
  switch ((int)((g[3] - g[3]) & 3u)) { case 0: a = a + 1u; case 1: r = r + (unsigned)c; break; case 2: b = b ^ t; default: u = u - 1u; }
  g[((unsigned)(g[a & 15u] >= b)) & 15u] = (((p0 ? p3 : a) | a) & t);
  g[(b ^ r) & 15u] = (g[3] * ((p1 | g[a & 15u]) + ((unsigned)((int)u <= (int)(unsigned)i))));
  if (p2) { s.a[((unsigned)c ? t : 255u) & 3u] = (g[3] % ((p4 * a) | 1u)); s.c = (char)t; w = s; t = t + w.a[(g[3] ? t : p4) & 3u] + (unsigned)w.c; s = w; } else { if (((s.a[1] ^ u) ? (t - g[a & 15u]) : ((unsigned)((int)p5 == (int)p3)))) { u = a; } else { b = (((r >> (r & 31u)) ? (t + g[3]) : t) / (g[a & 15u] | 1u)); } }
  g[t & 15u] = (((7u * p4) + (p3 ^ s.a[1])) * ((a * a) * ((unsigned)(p1 > g[a & 15u]))));
  switch ((int)(((unsigned)(char)p0) & 3u)) { case 0: a = a + 1u; case 1: r = r + (((unsigned)((int)p4 >> (int)(p0 & 31u))) | p0); break; case 2: b = b ^ t; default: u = u - 1u; }
  s.a[g[a & 15u] & 3u] = t; s.c = (char)t; w = s; t = t + w.a[p2 & 3u] + (unsigned)w.c; s = w;
  c = (char)(((unsigned)((int)p2 >> (int)(g[3] & 31u))) & (p5 | r)); t = t ^ (unsigned)c;
  switch ((int)((p1 / (g[3] | 1u)) & 3u)) { case 0: a = a + 1u; case 1: r = r + ((g[a & 15u] >> (p3 & 31u)) * b); break; case 2: b = b ^ t; default: u = u - 1u; }
  return t ^ a ^ b ^ u ^ r;
}
unsigned f1(unsigned p0, unsigned p1, unsigned p2, register unsigned p3, register unsigned p4, unsigned p5, register unsigned p6, unsigned p7) {
  unsigned a; unsigned b; unsigned t; unsigned u; register unsigned r; char c; int i;
  a = p0; b = p1; t = 0u; u = 1u; r = 2u; c = 0; i = 0;
  t = (((s.a[1] | 0u) & (p2 >> (s.a[1] & 31u))) / (((p6 & b) | u) | 1u));
  switch ((int)((a % (p6 | 1u)) & 3u)) { case 0: a = a + 1u; case 1: r = r + (((unsigned)i - a) ^ ((unsigned)(p1 <= a))); break; case 2: b = b ^ t; default: u = u - 1u; }
  g[p4 & 15u] = (3u & ((unsigned)((g[3] * (unsigned)c) > ((unsigned)(s.a[1] != p4)))));
  s.a[(a * p2) & 3u] = ((g[a & 15u] << (p5 & 31u)) ? (p6 | p4) : t); s.c = (char)t; w = s; t = t + w.a[(0u >> (t & 31u)) & 3u] + (unsigned)w.c; s = w;
  c = (char)(p7 >> ((t ? p5 : p6) & 31u)); t = t ^ (unsigned)c;
  if (((g[3] >> (p5 & 31u)) | u)) { if (((g[3] ? s.a[1] : p4) & (t + (unsigned)c))) { b = ((p1 - (65535u & (unsigned)i)) % (((p4 | u) * (s.a[1] >> (a & 31u))) | 1u)); } else { t = ((unsigned)(char)((t % (g[3] | 1u)) & (r ^ t))); } } else { u = p5; }
  s.a[((unsigned)((int)p5 >> (int)(p1 & 31u))) & 3u] = ((t >> (a & 31u)) % (((unsigned)c - p7) | 1u)); s.c = (char)t; w = s; t = t + w.a[(g[a & 15u] ^ g[3]) & 3u] + (unsigned)w.c; s = w;
  if (((b % (0u | 1u)) - r)) { r = ((unsigned)(char)((unsigned)(char)(p4 / (g[a & 15u] | 1u)))); } else { for (i = 0; i < 3; i++) { b = t; t = t + p4; } }
  c = (char)((b - p4) & g[a & 15u]); t = t ^ (unsigned)c;
  t = t + f0(t, (p5 << (g[3] & 31u)), p1, (p5 + s.a[1]), ((unsigned)((int)t >> (int)(g[a & 15u] & 31u))), ((unsigned)((int)3u >> (int)((unsigned)c & 31u))));
  return t ^ a ^ b ^ u ^ r;
}
unsigned f2(unsigned p0, register unsigned p1) {
  unsigned a; unsigned b; unsigned t; register unsigned u; register unsigned r; char c; int i;
  a = p0; b = p1; t = 0u; u = 1u; r = 2u; c = 0; i = 0;
  switch ((int)((p0 | g[3]) & 3u)) { case 0: a = a + 1u; case 1: r = r + (b | (p0 / (b | 1u))); break; case 2: b = b ^ t; default: u = u - 1u; }
  a = a;
  if (((unsigned)((int)(unsigned)i < (int)(r / (r | 1u))))) { a = (unsigned)i; } else { u = ((unsigned)((int)(((unsigned)((int)(unsigned)c == (int)(unsigned)i)) * b) >> (int)(p1 & 31u))); }
  g[(t % (b | 1u)) & 15u] = (((b / (a | 1u)) ? (a * r) : ((unsigned)((int)a == (int)p1))) & ((unsigned)((int)(p1 >> (g[3] & 31u)) >> (int)((r >> (t & 31u)) & 31u))));
  switch ((int)((s.a[1] & b) & 3u)) { case 0: a = a + 1u; case 1: r = r + ((unsigned)((unsigned)i <= (g[a & 15u] * r))); break; case 2: b = b ^ t; default: u = u - 1u; }
  a = (unsigned)i;
  for (i = 0; i < 5; i++) { u = ((p1 ? t : p1) - ((unsigned)i / (g[a & 15u] | 1u))); t = t + p1; }
  t = t + f1(((unsigned)(p0 < a)), (s.a[1] - u), (g[a & 15u] + p0), (u ^ g[3]), (p1 ? g[a & 15u] : (unsigned)c), (255u >> (r & 31u)), a, ((unsigned)i & a));
  return t ^ a ^ b ^ u ^ r;
}
int main(void) { int i; unsigned t; t = 0u; for (i = 0; i < 40; i++) { t = t * 3u + f2((unsigned)i, t); putchar((int)(t & 63u) + 32); } num(t); return (int)(t & 127u); }
