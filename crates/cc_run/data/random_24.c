void num(unsigned n) { if (n >= 10u) num(n / 10u); putchar((int)(n % 10u) + 48); }
void show(int n) { if (n < 0) { putchar('-'); num(-(unsigned)n); } else num((unsigned)n); putchar(10); }
unsigned g[16]; struct m { char c; unsigned a[4]; char d; } s, w;
unsigned f0(register unsigned p0, unsigned p1, unsigned p2, unsigned p3, unsigned p4) {
  unsigned a; unsigned b; unsigned t; unsigned u; register unsigned r; char c; int i;
  a = p0; b = p1; t = 0u; u = 1u; r = 2u; c = 0; i = 0;
  b = ((((unsigned)c | (unsigned)i) * (p1 >> (t & 31u))) << ((unsigned)c & 31u));
  if (((r & r) % ((r / (s.a[1] | 1u)) | 1u))) { c = (char)((t ? p3 : b) << (p2 & 31u)); t = t ^ (unsigned)c; } else { s.a[((unsigned)((unsigned)c != r)) & 3u] = ((a * p2) - ((unsigned)((int)p2 < (int)p4))); s.c = (char)t; w = s; t = t + w.a[(b | a) & 3u] + (unsigned)w.c; s = w; }
  switch ((int)(u & 3u)) { case 0: a = a + 1u; case 1: r = r + (p4 * ((unsigned)((int)t <= (int)p4))); break; case 2: b = b ^ t; default: u = u - 1u; }
  g[(s.a[1] - t) & 15u] = (((u * p4) << ((a - a) & 31u)) ? ((unsigned)(char)(g[3] - a)) : (((unsigned)((int)p2 >> (int)(p1 & 31u))) << (((unsigned)(char)p3) & 31u)));
  s.a[(p3 ? u : s.a[1]) & 3u] = (((unsigned)((int)p1 != (int)s.a[1])) % ((r ^ s.a[1]) | 1u)); s.c = (char)t; w = s; t = t + w.a[((unsigned)(char)g[a & 15u]) & 3u] + (unsigned)w.c; s = w;
  b = (((unsigned)(((unsigned)c * g[a & 15u]) && (u / (p1 | 1u)))) >> (g[3] & 31u));
  c = (char)((u % (r | 1u)) << ((b + 255u) & 31u)); t = t ^ (unsigned)c;
  if (((unsigned)((u + r) != ((unsigned)(char)g[3])))) { r = (p1 % (((s.a[1] / (p3 | 1u)) - (b - (unsigned)i)) | 1u)); } else { switch ((int)((p0 >> (g[3] & 31u)) & 3u)) { case 0: a = a + 1u; case 1: r = r + p4; break; case 2: b = b ^ t; default: u = u - 1u; } }
  g[(g[a & 15u] / (b | 1u)) & 15u] = (g[a & 15u] >> (((p3 ? t : b) << ((t >> (u & 31u)) & 31u)) & 31u));
  b = ((a ^ (g[3] * (unsigned)i)) % (p1 | 1u));
  return t ^ a ^ b ^ u ^ r;
}
unsigned f1(unsigned p0, unsigned p1, unsigned p2, register unsigned p3) {
  unsigned a; unsigned b; unsigned t; unsigned u; register unsigned r; char c; int i;
  a = p0; b = p1; t = 0u; u = 1u; r = 2u; c = 0; i = 0;
  t = ((((unsigned)(char)s.a[1]) >> ((p1 ^ 4250622899u) & 31u)) >> ((unsigned)c & 31u));
  u = ((unsigned)((int)((g[3] - g[3]) ^ (a * p2)) >> (int)((((unsigned)(r >= p0)) & ((unsigned)(char)p2)) & 31u)));
  t = ((unsigned)((int)((p2 << (p0 & 31u)) & ((unsigned)c + g[3])) > (int)((unsigned)(((unsigned)((int)(unsigned)i >> (int)(r & 31u))) >= (p1 * g[3])))));
  t = t;
  r = (((p1 << (p0 & 31u)) % (((unsigned)i + p2) | 1u)) * (((unsigned)((int)b >> (int)(t & 31u))) & (p2 & t)));
  c = (char)p2; t = t ^ (unsigned)c;
  r = (((p3 * p3) ^ (r ^ g[a & 15u])) ? (((unsigned)((int)p2 < (int)s.a[1])) % (p3 | 1u)) : ((s.a[1] & b) << (p2 & 31u)));
  for (i = 0; i < 2; i++) { b = ((unsigned)(char)(0u << (p0 & 31u))); t = t + g[a & 15u]; }
  c = (char)((p2 ? b : t) ? (p1 & p0) : (u % ((unsigned)i | 1u))); t = t ^ (unsigned)c;
  c = (char)(((unsigned)i + g[3]) << ((g[3] & u) & 31u)); t = t ^ (unsigned)c;
  if (((b ? a : s.a[1]) & u)) { for (i = 0; i < 2; i++) { b = ((p2 / (p3 | 1u)) << (((unsigned)((int)r > (int)g[3])) & 31u)); t = t + s.a[1]; } } else { switch ((int)((a >> (a & 31u)) & 3u)) { case 0: a = a + 1u; case 1: r = r + (((unsigned)(p3 > b)) % (t | 1u)); break; case 2: b = b ^ t; default: u = u - 1u; } }
  t = t + f0((p2 ^ p0), (r % ((unsigned)c | 1u)), ((unsigned)c * 31u), p2, ((unsigned)(char)r));
  return t ^ a ^ b ^ u ^ r;
}
unsigned f2(unsigned p0, unsigned p1) {
  unsigned a; unsigned b; unsigned t; unsigned u; register unsigned r; char c; int i;
  a = p0; b = p1; t = 0u; u = 1u; r = 2u; c = 0; i = 0;
  c = (char)((unsigned)((int)(u % ((unsigned)c | 1u)) >> (int)(((unsigned)(char)s.a[1]) & 31u))); t = t ^ (unsigned)c;
  for (i = 0; i < 5; i++) { b = ((unsigned)((int)((unsigned)((int)r >> (int)(r & 31u))) < (int)((unsigned)((int)p1 != (int)(unsigned)i)))); t = t + b; }
  if (((65535u & b) - ((unsigned)i << (g[a & 15u] & 31u)))) { if (((unsigned)((int)(s.a[1] | b) >> (int)((b * s.a[1]) & 31u)))) { t = ((unsigned)(((unsigned)((r ^ r) && ((unsigned)(r || a)))) == ((p0 - (unsigned)c) | (t - t)))); } else { t = (((t % (t | 1u)) ? ((unsigned)((int)r >> (int)(r & 31u))) : (t << (a & 31u))) ^ (((unsigned)(t == p0)) ^ ((unsigned)(char)p1))); } } else { b = (p1 * p1); }
  c = (char)((unsigned)((int)(s.a[1] / (s.a[1] | 1u)) >= (int)(g[a & 15u] << (a & 31u)))); t = t ^ (unsigned)c;
  for (i = 0; i < 3; i++) { a = (unsigned)i; t = t + (unsigned)c; }
  b = ((((unsigned)((unsigned)c >= u)) - (g[a & 15u] - p0)) ^ (((unsigned)i * s.a[1]) & ((unsigned)((int)p1 < (int)(unsigned)c))));
  s.a[((unsigned)((int)b >= (int)b)) & 3u] = ((unsigned)i + ((unsigned)((int)s.a[1] >> (int)(u & 31u)))); s.c = (char)t; w = s; t = t + w.a[(unsigned)c & 3u] + (unsigned)w.c; s = w;
  s.a[(b ^ r) & 3u] = (((unsigned)i ^ g[3]) >> (((unsigned)((int)b >> (int)(b & 31u))) & 31u)); s.c = (char)t; w = s; t = t + w.a[(g[a & 15u] ? u : p0) & 3u] + (unsigned)w.c; s = w;
  if ((g[3] - ((unsigned)c ? g[3] : g[3]))) { s.a[((unsigned)i ^ r) & 3u] = (s.a[1] >> (((unsigned)((int)g[3] > (int)p0)) & 31u)); s.c = (char)t; w = s; t = t + w.a[(g[a & 15u] * u) & 3u] + (unsigned)w.c; s = w; } else { for (i = 0; i < 3; i++) { a = ((2u ^ s.a[1]) ^ (p1 >> ((unsigned)i & 31u))); t = t + (unsigned)c; } }
  if (r) { c = (char)(((unsigned)i << (r & 31u)) - (0u * p1)); t = t ^ (unsigned)c; } else { c = (char)((unsigned)(char)(g[a & 15u] & r)); t = t ^ (unsigned)c; }
  t = t + f1(((unsigned)((int)s.a[1] != (int)s.a[1])), (t / (a | 1u)), (p1 * (unsigned)c), (unsigned)i);
  return t ^ a ^ b ^ u ^ r;
}
unsigned f3(unsigned p0, register unsigned p1, unsigned p2, unsigned p3, unsigned p4, register unsigned p5) {
  unsigned a; unsigned b; unsigned t; unsigned u; register unsigned r; char c; int i;
  a = p0; b = p1; t = 0u; u = 1u; r = 2u; c = 0; i = 0;
  a = (r << (((unsigned)(char)(31u % (r | 1u))) & 31u));
  c = (char)((unsigned)((int)(p5 ? u : g[a & 15u]) >> (int)(((unsigned)(p0 || 4294967295u)) & 31u))); t = t ^ (unsigned)c;
  c = (char)((p0 / (a | 1u)) ^ p1); t = t ^ (unsigned)c;
  r = (((unsigned)((int)(p2 >> (p2 & 31u)) >> (int)(((unsigned)((int)t == (int)p2)) & 31u))) & ((b << (t & 31u)) ? (p2 + p5) : (t ? p5 : r)));
  s.a[(1u | (unsigned)i) & 3u] = p3; s.c = (char)t; w = s; t = t + w.a[(p3 % (u | 1u)) & 3u] + (unsigned)w.c; s = w;
  u = (unsigned)i;
  u = ((((unsigned)(p1 != p3)) >> (g[3] & 31u)) + ((p0 % (t | 1u)) << (((unsigned)(a && p3)) & 31u)));
  s.a[(p1 ? (unsigned)c : p5) & 3u] = (unsigned)i; s.c = (char)t; w = s; t = t + w.a[a & 3u] + (unsigned)w.c; s = w;
  s.a[((unsigned)(char)p3) & 3u] = (((unsigned)((int)p5 < (int)t)) * (g[a & 15u] << (p0 & 31u))); s.c = (char)t; w = s; t = t + w.a[(p0 << (p5 & 31u)) & 3u] + (unsigned)w.c; s = w;
  u = ((unsigned)(r < ((p5 & p5) + (r ^ p4))));
  t = t + f2((s.a[1] >> (p0 & 31u)), (g[a & 15u] ^ (unsigned)i));
  return t ^ a ^ b ^ u ^ r;
}
int main(void) { int i; unsigned t; t = 0u; for (i = 0; i < 40; i++) { t = t * 3u + f3((unsigned)i, t, 69u, 10u, 15u, 30u); putchar((int)(t & 63u) + 32); } num(t); return (int)(t & 127u); }
