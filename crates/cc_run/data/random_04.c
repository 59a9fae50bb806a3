void num(unsigned n) { if (n >= 10u) num(n / 10u); putchar((int)(n % 10u) + 48); }
void show(int n) { if (n < 0) { putchar('-'); num(-(unsigned)n); } else num((unsigned)n); putchar(10); }
unsigned g[16]; struct m { char c; unsigned a[4]; char d; } s, w;
unsigned f0(unsigned p0, register unsigned p1, unsigned p2, unsigned p3) {
  unsigned a; unsigned b; unsigned t; unsigned u; register unsigned r; char c; int i;
  a = p0; b = p1; t = 0u; u = 1u; r = 2u; c = 0; i = 0;
  a = ((((unsigned)((int)3u >> (int)(r & 31u))) & ((unsigned)((int)g[a & 15u] >> (int)(u & 31u)))) << (((unsigned)c << (((unsigned)(char)r) & 31u)) & 31u));
  if (((a * 1u) ? (255u * t) : (p1 >> ((unsigned)c & 31u)))) { for (i = 0; i < 2; i++) { u = (((unsigned)(u == t)) + (s.a[1] | r)); t = t + s.a[1]; } } else { g[(a - p0) & 15u] = (((2147483648u & p0) + (u >> (s.a[1] & 31u))) ? ((u & s.a[1]) >> ((p0 / (s.a[1] | 1u)) & 31u)) : ((g[a & 15u] / (g[3] | 1u)) | b)); }
  if ((p3 ^ s.a[1])) { c = (char)(((unsigned)c & g[a & 15u]) ^ ((unsigned)c + b)); t = t ^ (unsigned)c; } else { u = ((p3 & (u & p2)) % (g[a & 15u] | 1u)); }
  c = (char)((unsigned)(char)b); t = t ^ (unsigned)c;
  a = ((u ? (4294967295u ? u : p2) : (t << (g[3] & 31u))) & ((unsigned)((int)(330975741u * p0) >> (int)((a << ((unsigned)c & 31u)) & 31u))));
  return t ^ a ^ b ^ u ^ r;
}
unsigned f1(register unsigned p0, unsigned p1, unsigned p2, unsigned p3, register unsigned p4, unsigned p5, register unsigned p6) {
  unsigned a; unsigned b; unsigned t; unsigned u; register unsigned r; char c; int i;
  a = p0; b = p1; t = 0u; u = 1u; r = 2u; c = 0; i = 0;
  if (((unsigned)((int)((unsigned)c / (31u | 1u)) >= (int)((unsigned)(char)p4)))) { s.a[((unsigned)((int)t >> (int)((unsigned)i & 31u))) & 3u] = (p3 ? (r | p2) : (g[a & 15u] % ((unsigned)i | 1u))); s.c = (char)t; w = s; t = t + w.a[(0u & (unsigned)c) & 3u] + (unsigned)w.c; s = w; } else { s.a[p6 & 3u] = ((p3 >> (a & 31u)) << ((a & a) & 31u)); s.c = (char)t; w = s; t = t + w.a[(g[3] | p5) & 3u] + (unsigned)w.c; s = w; }
  for (i = 0; i < 4; i++) { r = ((p0 ^ g[3]) ^ g[a & 15u]); t = t + t; }
  for (i = 0; i < 3; i++) { u = (unsigned)i; t = t + a; }
  a = ((((unsigned)((int)g[3] >> (int)(p6 & 31u))) / ((g[3] << (p3 & 31u)) | 1u)) ^ (((unsigned)(g[a & 15u] < t)) % ((p0 << (g[a & 15u] & 31u)) | 1u)));
  switch ((int)((g[a & 15u] >> (p6 & 31u)) & 3u)) { case 0: a = a + 1u; case 1: r = r + ((g[3] >> (g[a & 15u] & 31u)) + (p1 >> (b & 31u))); break; case 2: b = b ^ t; default: u = u - 1u; }
  a = (((p1 / (u | 1u)) ? 65535u : (b >> (p1 & 31u))) % (((u & 31u) * (r << (p4 & 31u))) | 1u));
  for (i = 0; i < 2; i++) { r = ((unsigned)(char)p0); t = t + p0; }
  a = (((p0 ^ 31u) + ((unsigned)((int)r >> (int)(u & 31u)))) / (((p1 | r) + (g[a & 15u] ^ p6)) | 1u));
  t = (g[a & 15u] * ((g[a & 15u] + t) ^ p6));
  t = t + f0((t | u), (u >> (a & 31u)), (p1 % (p4 | 1u)), (p0 ? p4 : (unsigned)c));
  return t ^ a ^ b ^ u ^ r;
}
int main(void) { int i; unsigned t; t = 0u; for (i = 0; i < 40; i++) { t = t * 3u + f1((unsigned)i, t, 90u, 26u, 68u, 61u, 79u); putchar((int)(t & 63u) + 32); } num(t); return (int)(t & 127u); }
