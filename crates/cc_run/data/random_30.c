void num(unsigned n) { if (n >= 10u) num(n / 10u); putchar((int)(n % 10u) + 48); }
void show(int n) { if (n < 0) { putchar('-'); num(-(unsigned)n); } else num((unsigned)n); putchar(10); }
unsigned g[16]; struct m { char c; unsigned a[4]; char d; } s, w;
unsigned f0(unsigned p0, register unsigned p1, unsigned p2, register unsigned p3, register unsigned p4, unsigned p5, unsigned p6, unsigned p7) {
  unsigned a; unsigned b; unsigned t; register unsigned u; register unsigned r; char c; int i;
  a = p0; b = p1; t = 0u; u = 1u; r = 2u; c = 0; i = 0;
  a = (p6 / (((unsigned)((int)(3u + 255u) >> (int)((r | (unsigned)i) & 31u))) | 1u));
  b = ((unsigned)c >> (((p0 >> (a & 31u)) - ((unsigned)i ^ g[3])) & 31u));
  r = (((p7 % (p5 | 1u)) ? ((unsigned)(p2 <= p6)) : (u << (b & 31u))) / (((unsigned)((int)(t & 255u) >> (int)(p2 & 31u))) | 1u));
  g[(p0 << (u & 31u)) & 15u] = (g[a & 15u] ? (u - (1477042741u ? p2 : p6)) : ((unsigned)((int)(s.a[1] << (p4 & 31u)) >> (int)(p6 & 31u))));
  if (a) { c = (char)((t | b) * ((unsigned)(char)p5)); t = t ^ (unsigned)c; } else { r = (((unsigned)(char)((unsigned)((int)g[3] < (int)a))) ? ((unsigned)(a != (g[3] ^ p4))) : ((unsigned)((int)(u + t) < (int)((unsigned)(4294967295u || g[3]))))); }
  b = (((p6 + p3) - (g[a & 15u] % (b | 1u))) / ((((unsigned)((int)p0 >> (int)(p5 & 31u))) + (p5 << (a & 31u))) | 1u));
  switch ((int)(p5 & 3u)) { case 0: a = a + 1u; case 1: r = r + ((p3 << (t & 31u)) | s.a[1]); break; case 2: b = b ^ t; default: u = u - 1u; }
  g[g[3] & 15u] = ((((unsigned)(p3 || (unsigned)c)) % ((p3 ^ b) | 1u)) * p2);
  return t ^ a ^ b ^ u ^ r;
}
unsigned f1(unsigned p0, unsigned p1, register unsigned p2, unsigned p3, register unsigned p4, register unsigned p5, register unsigned p6, unsigned p7) {
  unsigned a; unsigned b; unsigned t; register unsigned u; register unsigned r; char c; int i;
  a = p0; b = p1; t = 0u; u = 1u; r = 2u; c = 0; i = 0;
  switch ((int)(p3 & 3u)) { case 0: a = a + 1u; case 1: r = r + ((unsigned)((int)(a << (p6 & 31u)) <= (int)(u & g[3]))); break; case 2: b = b ^ t; default: u = u - 1u; }
  s.a[(p0 >> (r & 31u)) & 3u] = t; s.c = (char)t; w = s; t = t + w.a[(p7 | p0) & 3u] + (unsigned)w.c; s = w;
  t = ((((unsigned)((int)u != (int)u)) | ((unsigned)((unsigned)c || p4))) / (((a ^ t) | (2147483648u * p1)) | 1u));
  c = (char)p4; t = t ^ (unsigned)c;
  switch ((int)(p7 & 3u)) { case 0: a = a + 1u; case 1: r = r + ((g[a & 15u] << (b & 31u)) >> (p4 & 31u)); break; case 2: b = b ^ t; default: u = u - 1u; }
  t = (((p2 * (unsigned)c) & (s.a[1] % ((unsigned)i | 1u))) % ((r & (g[3] + p1)) | 1u));
  t = p4;
  s.a[((unsigned)(p4 <= r)) & 3u] = ((s.a[1] * s.a[1]) | p4); s.c = (char)t; w = s; t = t + w.a[(g[a & 15u] ? p0 : u) & 3u] + (unsigned)w.c; s = w;
  t = t + f0(p5, p2, ((unsigned)(char)b), (p4 + p2), (unsigned)i, (t >> (p4 & 31u)), ((unsigned)c ^ a), ((unsigned)i ? (unsigned)c : p2));
  return t ^ a ^ b ^ u ^ r;
}
unsigned f2(unsigned p0, register unsigned p1, unsigned p2, register unsigned p3, register unsigned p4) {
  unsigned a; unsigned b; unsigned t; register unsigned u; register unsigned r; char c; int i;
  a = p0; b = p1; t = 0u; u = 1u; r = 2u; c = 0; i = 0;
  switch ((int)((unsigned)i & 3u)) { case 0: a = a + 1u; case 1: r = r + (((unsigned)((int)p3 == (int)p0)) & ((unsigned)(p2 < g[3]))); break; case 2: b = b ^ t; default: u = u - 1u; }
  c = (char)((unsigned)((int)((unsigned)(u == a)) >> (int)(((unsigned)((int)p0 >> (int)(s.a[1] & 31u))) & 31u))); t = t ^ (unsigned)c;
  t = (((unsigned)((int)(b << (p1 & 31u)) > (int)(t >> (p1 & 31u)))) * (((unsigned)c - (unsigned)i) & (t * s.a[1])));
  g[(p2 << (t & 31u)) & 15u] = (r - (s.a[1] - (p4 >> (t & 31u))));
  b = (((unsigned)((s.a[1] / (g[3] | 1u)) > ((unsigned)((int)p4 >> (int)(p1 & 31u))))) | ((p4 | u) ? ((unsigned)((int)p0 != (int)p1)) : (g[3] | p1)));
  g[((unsigned)(s.a[1] != s.a[1])) & 15u] = (g[3] + ((unsigned)(char)(p2 & p0)));
  g[(p0 | r) & 15u] = (((unsigned)((p1 - p4) > (g[3] / (255u | 1u)))) * ((r >> (a & 31u)) + (p0 ? u : g[3])));
  t = t + f1(((unsigned)((int)2u < (int)(unsigned)c)), ((unsigned)((int)p0 > (int)g[a & 15u])), (b * r), (p3 * p1), (p1 - p0), p1, ((unsigned)((int)a != (int)t)), (p2 & g[3]));
  return t ^ a ^ b ^ u ^ r;
}
unsigned f3(unsigned p0, unsigned p1, register unsigned p2, register unsigned p3, register unsigned p4) {
  unsigned a; unsigned b; unsigned t; unsigned u; register unsigned r; char c; int i;
  a = p0; b = p1; t = 0u; u = 1u; r = 2u; c = 0; i = 0;
  if (((p3 - b) >> ((p1 >> (u & 31u)) & 31u))) { switch ((int)((p2 >> (2306406000u & 31u)) & 3u)) { case 0: a = a + 1u; case 1: r = r + ((unsigned)(char)((unsigned)(p1 != (unsigned)i))); break; case 2: b = b ^ t; default: u = u - 1u; } } else { r = (((unsigned)((int)((unsigned)(b >= (unsigned)i)) >> (int)(p0 & 31u))) ? ((unsigned)((int)((unsigned)(char)p1) <= (int)((unsigned)i ? u : (unsigned)i))) : ((r % (p2 | 1u)) >> (p1 & 31u))); }
  c = (char)((r << (p4 & 31u)) ? (g[3] * p4) : ((unsigned)c | 255u)); t = t ^ (unsigned)c;
  switch ((int)((p3 + p1) & 3u)) { case 0: a = a + 1u; case 1: r = r + ((unsigned)((p1 | g[3]) <= (p2 >> (a & 31u)))); break; case 2: b = b ^ t; default: u = u - 1u; }
  switch ((int)(((unsigned)i << (t & 31u)) & 3u)) { case 0: a = a + 1u; case 1: r = r + ((p3 * (unsigned)i) | p2); break; case 2: b = b ^ t; default: u = u - 1u; }
  a = (((g[a & 15u] % (p0 | 1u)) * (t ? (unsigned)c : (unsigned)c)) | (((unsigned)(char)(unsigned)c) | ((unsigned)((int)2147483648u >> (int)(g[3] & 31u)))));
  t = (((p1 ? b : p0) * (s.a[1] & p4)) & p4);
  s.a[(s.a[1] * b) & 3u] = ((p2 / (g[a & 15u] | 1u)) ? ((unsigned)((int)31u > (int)p0)) : p2); s.c = (char)t; w = s; t = t + w.a[(p4 >> (s.a[1] & 31u)) & 3u] + (unsigned)w.c; s = w;
  u = ((unsigned)c | b);
  s.a[(g[3] + 3333250195u) & 3u] = ((g[a & 15u] & a) << ((p0 % (t | 1u)) & 31u)); s.c = (char)t; w = s; t = t + w.a[(unsigned)c & 3u] + (unsigned)w.c; s = w;
  b = ((unsigned)(char)p1);
  t = t + f2(g[3], (t >> (u & 31u)), p2, ((unsigned)((unsigned)c || a)), (b ? p4 : (unsigned)i));
  return t ^ a ^ b ^ u ^ r;
}
int main(void) { int i; unsigned t; t = 0u; for (i = 0; i < 40; i++) { t = t * 3u + f3((unsigned)i, t, 24u, 54u, 4u); putchar((int)(t & 63u) + 32); } num(t); return (int)(t & 127u); }
