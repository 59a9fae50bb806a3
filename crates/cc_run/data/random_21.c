void num(unsigned n) { if (n >= 10u) num(n / 10u); putchar((int)(n % 10u) + 48); }
void show(int n) { if (n < 0) { putchar('-'); num(-(unsigned)n); } else num((unsigned)n); putchar(10); }
unsigned g[16]; struct m { char c; unsigned a[4]; char d; } s, w;
unsigned f0(register unsigned p0, unsigned p1, register unsigned p2, unsigned p3, unsigned p4) {
  unsigned a; unsigned b; unsigned t; unsigned u; register unsigned r; char c; int i;
  a = p0; b = p1; t = 0u; u = 1u; r = 2u; c = 0; i = 0;
  switch ((int)((p3 ^ s.a[1]) & 3u)) { case 0: a = a + 1u; case 1: r = r + p4; break; case 2: b = b ^ t; default: u = u - 1u; }
  t = (((unsigned)((int)p4 >> (int)((g[3] >> (s.a[1] & 31u)) & 31u))) + t);
  s.a[((unsigned)((int)p3 <= (int)p2)) & 3u] = ((unsigned)((int)(0u | p0) >= (int)((unsigned)c - t))); s.c = (char)t; w = s; t = t + w.a[(g[3] | 31u) & 3u] + (unsigned)w.c; s = w;
  c = (char)(((unsigned)c - s.a[1]) / (((unsigned)i >> (p1 & 31u)) | 1u)); t = t ^ (unsigned)c;
  t = ((unsigned)(((p0 - g[3]) ? (r % (p0 | 1u)) : ((unsigned)(r < g[3]))) > ((unsigned)((int)(p4 ^ g[3]) == (int)(p2 >> (7u & 31u))))));
  s.a[(g[a & 15u] >> (p1 & 31u)) & 3u] = t; s.c = (char)t; w = s; t = t + w.a[((unsigned)(char)p4) & 3u] + (unsigned)w.c; s = w;
  g[s.a[1] & 15u] = ((unsigned)((int)((unsigned)(char)((unsigned)((int)s.a[1] >= (int)g[3]))) > (int)((g[3] - u) * (g[a & 15u] | p0))));
  s.a[(p2 % (p4 | 1u)) & 3u] = (((unsigned)((int)g[a & 15u] < (int)p1)) % (p4 | 1u)); s.c = (char)t; w = s; t = t + w.a[(r / (p1 | 1u)) & 3u] + (unsigned)w.c; s = w;
  t = ((unsigned)((((unsigned)(p4 >= p3)) + (a ? p0 : p1)) >= ((b * 2147483648u) - ((unsigned)((int)s.a[1] >= (int)(unsigned)i)))));
  s.a[(b >> (g[3] & 31u)) & 3u] = g[3]; s.c = (char)t; w = s; t = t + w.a[((unsigned)(char)b) & 3u] + (unsigned)w.c; s = w;
  g[((unsigned)((int)(unsigned)i >> (int)(g[3] & 31u))) & 15u] = ((unsigned)((((unsigned)((int)p2 >> (int)(p1 & 31u))) << ((a | g[a & 15u]) & 31u)) || (g[a & 15u] << ((s.a[1] % (b | 1u)) & 31u))));
  return t ^ a ^ b ^ u ^ r;
}
unsigned f1(unsigned p0, unsigned p1, register unsigned p2) {
  unsigned a; unsigned b; unsigned t; register unsigned u; register unsigned r; char c; int i;
  a = p0; b = p1; t = 0u; u = 1u; r = 2u; c = 0; i = 0;
  if ((((unsigned)((int)a != (int)u)) / ((p0 ? g[3] : s.a[1]) | 1u))) { switch ((int)((g[3] + p2) & 3u)) { case 0: a = a + 1u; case 1: r = r + ((t >> ((unsigned)c & 31u)) ^ (s.a[1] * p0)); break; case 2: b = b ^ t; default: u = u - 1u; } } else { s.a[(a | b) & 3u] = (((unsigned)i / (a | 1u)) - ((unsigned)((int)p2 >> (int)((unsigned)c & 31u)))); s.c = (char)t; w = s; t = t + w.a[(t / (g[3] | 1u)) & 3u] + (unsigned)w.c; s = w; }
  for (i = 0; i < 4; i++) { b = ((unsigned)(char)(b + g[a & 15u])); t = t + p2; }
  s.a[(p2 & (unsigned)c) & 3u] = p0; s.c = (char)t; w = s; t = t + w.a[p1 & 3u] + (unsigned)w.c; s = w;
  if ((((unsigned)((int)r >> (int)(b & 31u))) + (p2 & r))) { if (((unsigned)(char)(s.a[1] & a))) { b = (s.a[1] >> (((unsigned)((int)((unsigned)((int)2147483648u <= (int)g[3])) >> (int)((g[3] & p1) & 31u))) & 31u)); } else { r = (((u & p0) / ((g[a & 15u] << (p2 & 31u)) | 1u)) % (a | 1u)); } } else { t = p2; }
  c = (char)((s.a[1] | t) * ((unsigned)((int)a >> (int)(t & 31u)))); t = t ^ (unsigned)c;
  g[(g[3] * 2u) & 15u] = ((g[3] + ((unsigned)((int)g[3] > (int)p2))) ^ ((unsigned)(char)(g[a & 15u] | p1)));
  a = ((unsigned)(char)2147483648u);
  if (((r ? (unsigned)c : p0) / (((unsigned)c ? (unsigned)i : p0) | 1u))) { b = ((((unsigned)(p1 == a)) / (((unsigned)(p0 >= r)) | 1u)) | g[3]); } else { c = (char)((g[3] / (p2 | 1u)) % ((0u >> ((unsigned)c & 31u)) | 1u)); t = t ^ (unsigned)c; }
  b = ((unsigned)((int)((unsigned)(char)(g[a & 15u] & p2)) >= (int)((31u ? a : (unsigned)i) >> (s.a[1] & 31u))));
  if (((s.a[1] | p2) + ((unsigned)(31u || p0)))) { t = p2; } else { c = (char)((p1 ^ g[3]) / (((unsigned)((int)p2 == (int)p2)) | 1u)); t = t ^ (unsigned)c; }
  c = (char)((g[a & 15u] / (s.a[1] | 1u)) ? (a / (g[3] | 1u)) : (r + r)); t = t ^ (unsigned)c;
  t = t + f0((t % (p1 | 1u)), (r | t), (unsigned)c, (g[a & 15u] & g[3]), (p1 % ((unsigned)i | 1u)));
  return t ^ a ^ b ^ u ^ r;
}
int main(void) { int i; unsigned t; t = 0u; for (i = 0; i < 40; i++) { t = t * 3u + f1((unsigned)i, t, 85u); putchar((int)(t & 63u) + 32); } num(t); return (int)(t & 127u); }
