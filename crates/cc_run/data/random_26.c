void num(unsigned n) { if (n >= 10u) num(n / 10u); putchar((int)(n % 10u) + 48); }
void show(int n) { if (n < 0) { putchar('-'); num(-(unsigned)n); } else num((unsigned)n); putchar(10); }
unsigned g[16]; struct m { char c; unsigned a[4]; char d; } s, w;
unsigned f0(register unsigned p0, unsigned p1, unsigned p2) {
  unsigned a; unsigned b; unsigned t; unsigned u; register unsigned r; char c; int i;
  a = p0; b = p1; t = 0u; u = 1u; r = 2u; c = 0; i = 0;
  switch ((int)(g[a & 15u] & 3u)) { case 0: a = a + 1u; case 1: r = r + ((unsigned)((u - g[3]) != ((unsigned)i | p0))); break; case 2: b = b ^ t; default: u = u - 1u; }
  for (i = 0; i < 5; i++) { r = ((unsigned)c * ((unsigned)(b >= g[a & 15u]))); t = t + (unsigned)c; }
  r = ((unsigned)(((unsigned)((p0 | p2) < ((unsigned)(a || 2147483648u)))) && (((unsigned)(t > b)) ^ (g[a & 15u] * s.a[1]))));
  a = r;
  g[(unsigned)c & 15u] = (((u * r) + (a - u)) ^ (unsigned)c);
  s.a[(g[a & 15u] - g[3]) & 3u] = (((unsigned)(p1 == p2)) - (p2 << (r & 31u))); s.c = (char)t; w = s; t = t + w.a[(p1 % (b | 1u)) & 3u] + (unsigned)w.c; s = w;
  return t ^ a ^ b ^ u ^ r;
}
unsigned f1(unsigned p0, register unsigned p1, unsigned p2, unsigned p3, unsigned p4, register unsigned p5, register unsigned p6, register unsigned p7) {
  unsigned a; unsigned b; unsigned t; unsigned u; register unsigned r; char c; int i;
  a = p0; b = p1; t = 0u; u = 1u; r = 2u; c = 0; i = 0;
  c = (char)(((unsigned)((int)p5 >> (int)((unsigned)i & 31u))) * (2367872598u ? p4 : u)); t = t ^ (unsigned)c;
  u = ((unsigned)(char)p4);
  if (((p1 ^ p0) | (p1 - 3u))) { r = ((unsigned)(((g[3] + p7) - ((unsigned)((int)(unsigned)c == (int)p2))) <= s.a[1])); } else { t = (((g[a & 15u] - p1) ? (p2 * p3) : ((unsigned)i ? p7 : p5)) & ((s.a[1] | g[3]) & (p7 * g[a & 15u]))); }
  if (p0) { for (i = 0; i < 2; i++) { r = ((unsigned)i % (((unsigned)(char)(unsigned)c) | 1u)); t = t + (unsigned)c; } } else { if (((b ^ p5) | s.a[1])) { r = (a ? ((a << ((unsigned)c & 31u)) ^ (g[a & 15u] * p6)) : ((t & u) / ((g[3] * 255u) | 1u))); } else { a = ((unsigned)(((2147483648u - a) | p3) != (2506607358u - (p2 << (g[a & 15u] & 31u))))); } }
  u = ((unsigned)((int)p6 >> (int)((g[a & 15u] | (p4 + b)) & 31u)));
  t = ((unsigned)((int)(((unsigned)((int)(unsigned)c <= (int)(unsigned)c)) >> ((r / (p5 | 1u)) & 31u)) >> (int)(((g[a & 15u] % (p4 | 1u)) / ((p5 * g[a & 15u]) | 1u)) & 31u)));
  t = t + f0(((unsigned)(char)p4), (u & p5), ((unsigned)((int)p6 >> (int)(b & 31u))));
  return t ^ a ^ b ^ u ^ r;
}
unsigned f2(unsigned p0, register unsigned p1, unsigned p2) {
  unsigned a; unsigned b; unsigned t; unsigned u; register unsigned r; char c; int i;
  a = p0; b = p1; t = 0u; u = 1u; r = 2u; c = 0; i = 0;
  switch ((int)(((unsigned)((int)u == (int)r)) & 3u)) { case 0: a = a + 1u; case 1: r = r + (s.a[1] % (((unsigned)(char)(unsigned)i) | 1u)); break; case 2: b = b ^ t; default: u = u - 1u; }
  u = (((unsigned)(((unsigned)((int)a >> (int)(s.a[1] & 31u))) || (a << (255u & 31u)))) ? ((unsigned)((int)(t - g[a & 15u]) >> (int)((p2 * g[a & 15u]) & 31u))) : ((b >> (g[a & 15u] & 31u)) % (((unsigned)((int)p1 >> (int)(s.a[1] & 31u))) | 1u)));
  g[(g[3] % (3u | 1u)) & 15u] = ((unsigned)(char)((s.a[1] % (a | 1u)) & ((unsigned)((int)s.a[1] > (int)p1))));
  g[(p0 | 3u) & 15u] = ((unsigned)i * (((unsigned)((int)a != (int)r)) << (((unsigned)((int)t >> (int)(t & 31u))) & 31u)));
  s.a[(r << (p1 & 31u)) & 3u] = p2; s.c = (char)t; w = s; t = t + w.a[((unsigned)(char)u) & 3u] + (unsigned)w.c; s = w;
  s.a[(g[3] ^ (unsigned)i) & 3u] = ((g[3] & t) + ((unsigned)(char)g[a & 15u])); s.c = (char)t; w = s; t = t + w.a[(b & t) & 3u] + (unsigned)w.c; s = w;
  g[((unsigned)(char)(unsigned)i) & 15u] = ((unsigned)(char)(((unsigned)c | s.a[1]) / ((p2 | p2) | 1u)));
  r = ((unsigned)((r ^ (u ? p2 : (unsigned)i)) != ((p2 + 4294967295u) - (65535u % ((unsigned)i | 1u)))));
  for (i = 0; i < 5; i++) { r = b; t = t + s.a[1]; }
  t = t + f1(((unsigned)(char)a), (p0 - b), ((unsigned)c / (t | 1u)), ((unsigned)(char)r), (p0 ? (unsigned)c : b), ((unsigned)((unsigned)c >= b)), (u + g[a & 15u]), ((unsigned)c ^ p0));
  return t ^ a ^ b ^ u ^ r;
}
unsigned f3(unsigned p0, register unsigned p1, unsigned p2, unsigned p3, register unsigned p4, register unsigned p5, register unsigned p6) {
  unsigned a; unsigned b; unsigned t; unsigned u; register unsigned r; char c; int i;
  a = p0; b = p1; t = 0u; u = 1u; r = 2u; c = 0; i = 0;
  s.a[(g[3] >> (u & 31u)) & 3u] = (((unsigned)(b < p4)) * r); s.c = (char)t; w = s; t = t + w.a[255u & 3u] + (unsigned)w.c; s = w;
  if ((((unsigned)(char)(unsigned)c) >> (p4 & 31u))) { t = (p3 % ((((unsigned)i - p6) / ((31u | b) | 1u)) | 1u)); } else { b = ((((unsigned)i - u) * (p1 * p0)) * (unsigned)i); }
  r = r;
  u = (((p6 | p4) * (unsigned)i) * (((unsigned)c + u) + u));
  s.a[(p6 ? p4 : p0) & 3u] = ((t * s.a[1]) >> ((p3 % ((unsigned)c | 1u)) & 31u)); s.c = (char)t; w = s; t = t + w.a[(u >> (s.a[1] & 31u)) & 3u] + (unsigned)w.c; s = w;
  c = (char)((3u - p1) % (((unsigned)c | r) | 1u)); t = t ^ (unsigned)c;
  s.a[(p4 ? (unsigned)i : p6) & 3u] = ((s.a[1] & 65535u) % ((g[a & 15u] / (b | 1u)) | 1u)); s.c = (char)t; w = s; t = t + w.a[p6 & 3u] + (unsigned)w.c; s = w;
  c = (char)(((unsigned)(char)p5) + (2u - g[a & 15u])); t = t ^ (unsigned)c;
  for (i = 0; i < 4; i++) { u = ((t ? p0 : p6) % (((unsigned)(r > (unsigned)c)) | 1u)); t = t + s.a[1]; }
  s.a[((unsigned)(char)p0) & 3u] = ((p4 % (p2 | 1u)) ^ (t / (p5 | 1u))); s.c = (char)t; w = s; t = t + w.a[((unsigned)(p0 && p1)) & 3u] + (unsigned)w.c; s = w;
  r = (((unsigned)((int)((unsigned)(char)p5) > (int)g[a & 15u])) << (((p6 ^ (unsigned)i) / ((p6 >> (a & 31u)) | 1u)) & 31u));
  t = t + f2(p2, ((unsigned)(char)p0), (r - r));
  return t ^ a ^ b ^ u ^ r;
}
int main(void) { int i; unsigned t; t = 0u; for (i = 0; i < 40; i++) { t = t * 3u + f3((unsigned)i, t, 15u, 94u, 72u, 55u, 39u); putchar((int)(t & 63u) + 32); } num(t); return (int)(t & 127u); }
