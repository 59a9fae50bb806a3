void num(unsigned n) { if (n >= 10u) num(n / 10u); putchar((int)(n % 10u) + 48); }
void show(int n) { if (n < 0) { putchar('-'); num(-(unsigned)n); } else num((unsigned)n); putchar(10); }
unsigned g[16]; struct m { char c; unsigned a[4]; char d; } s, w;
unsigned f0(unsigned p0, unsigned p1, unsigned p2, register unsigned p3, unsigned p4, unsigned p5, unsigned p6, unsigned p7) {
  unsigned a; unsigned b; unsigned t; register unsigned u; register unsigned r; char c; int i;
  a = p0; b = p1; t = 0u; u = 1u; r = 2u; c = 0; i = 0;
  c = (char)g[a & 15u]; t = t ^ (unsigned)c;
  s.a[(p1 >> (p2 & 31u)) & 3u] = ((1u | p5) & (s.a[1] ? (unsigned)c : p2)); s.c = (char)t; w = s; t = t + w.a[((unsigned)((int)u >> (int)(g[3] & 31u))) & 3u] + (unsigned)w.c; s = w;
  b = ((unsigned)((int)((unsigned)(char)((unsigned)((int)p4 >> (int)(p2 & 31u)))) >> (int)(b & 31u)));
  r = (((r + (unsigned)i) + (a ^ t)) | ((unsigned)c << ((p3 ^ t) & 31u)));
  t = (((unsigned)(char)((unsigned)c + p3)) + p7);
  t = (p5 - p5);
  c = (char)(((unsigned)c & p6) % (s.a[1] | 1u)); t = t ^ (unsigned)c;
  c = (char)((p4 << (s.a[1] & 31u)) & (p0 * p0)); t = t ^ (unsigned)c;
  switch ((int)((p2 * (unsigned)i) & 3u)) { case 0: a = a + 1u; case 1: r = r + ((p0 ? p7 : a) + (p5 * p6)); break; case 2: b = b ^ t; default: u = u - 1u; }
  return t ^ a ^ b ^ u ^ r;
}
unsigned f1(unsigned p0, unsigned p1, register unsigned p2, unsigned p3, register unsigned p4, unsigned p5) {
  unsigned a; unsigned b; unsigned t; unsigned u; register unsigned r; char c; int i;
  a = p0; b = p1; t = 0u; u = 1u; r = 2u; c = 0; i = 0;
  t = 0u;
  for (i = 0; i < 3; i++) { a = (b % ((p0 * r) | 1u)); t = t + (unsigned)i; }
  if ((((unsigned)((int)p0 != (int)u)) ? a : (unsigned)c)) { a = ((unsigned)(((g[3] * p4) | (p4 << (65535u & 31u))) > (((unsigned)i % (a | 1u)) >> ((p2 >> (a & 31u)) & 31u)))); } else { a = ((unsigned)i ? ((p1 - g[a & 15u]) & (s.a[1] / (p0 | 1u))) : ((s.a[1] >> (p0 & 31u)) ? (s.a[1] ? (unsigned)c : s.a[1]) : p3)); }
  r = (p0 * (((unsigned)(char)r) | (s.a[1] * 2u)));
  switch ((int)((p1 + b) & 3u)) { case 0: a = a + 1u; case 1: r = r + ((unsigned)c * (s.a[1] * r)); break; case 2: b = b ^ t; default: u = u - 1u; }
  s.a[(s.a[1] << (p1 & 31u)) & 3u] = (((unsigned)i + u) / ((t & s.a[1]) | 1u)); s.c = (char)t; w = s; t = t + w.a[((unsigned)(char)t) & 3u] + (unsigned)w.c; s = w;
  r = (((s.a[1] % (b | 1u)) + ((unsigned)(char)g[3])) % ((((unsigned)((int)2u >> (int)(t & 31u))) * (p4 >> (p2 & 31u))) | 1u));
  t = ((unsigned)((int)((p5 | (unsigned)c) & ((unsigned)((int)2u >> (int)(2147483648u & 31u)))) <= (int)(((unsigned)c ? p3 : 0u) >> ((r ? t : p3) & 31u))));
  for (i = 0; i < 2; i++) { u = (((unsigned)(char)p2) & ((unsigned)i * p5)); t = t + (unsigned)c; }
  t = t + f0((p1 << (g[a & 15u] & 31u)), ((unsigned)c / (p3 | 1u)), (p3 - p1), (s.a[1] / (r | 1u)), (p1 >> (p1 & 31u)), (g[a & 15u] << (u & 31u)), a, (p2 | r));
  return t ^ a ^ b ^ u ^ r;
}
unsigned f2(unsigned p0, register unsigned p1) {
  unsigned a; unsigned b; unsigned t; unsigned u; register unsigned r; char c; int i;
  a = p0; b = p1; t = 0u; u = 1u; r = 2u; c = 0; i = 0;
  a = ((unsigned)(((a / (b | 1u)) % (p1 | 1u)) <= (((unsigned)i - p1) | (b << ((unsigned)i & 31u)))));
  g[((unsigned)(char)a) & 15u] = ((unsigned)((int)(s.a[1] ? (65535u ? r : (unsigned)c) : ((unsigned)((int)(unsigned)c >> (int)(p0 & 31u)))) >> (int)(((unsigned)((int)(s.a[1] ^ a) > (int)(u ? p1 : t))) & 31u)));
  b = u;
  g[(g[a & 15u] & 1u) & 15u] = ((unsigned)(((g[3] + u) / (((unsigned)(char)t) | 1u)) <= ((a ? p0 : p0) ^ ((unsigned)((unsigned)c != (unsigned)i)))));
  c = (char)((unsigned)((int)(p1 + g[3]) > (int)((unsigned)c % (2147483648u | 1u)))); t = t ^ (unsigned)c;
  switch ((int)(((unsigned)(0u || u)) & 3u)) { case 0: a = a + 1u; case 1: r = r + ((t | 31u) ? ((unsigned)((int)b != (int)b)) : ((unsigned)((int)g[a & 15u] >> (int)(a & 31u)))); break; case 2: b = b ^ t; default: u = u - 1u; }
  for (i = 0; i < 4; i++) { a = (((unsigned)((int)g[a & 15u] < (int)b)) ^ (s.a[1] + g[a & 15u])); t = t + p1; }
  s.a[(p1 << (g[3] & 31u)) & 3u] = (p1 ^ (u * p1)); s.c = (char)t; w = s; t = t + w.a[(t * g[3]) & 3u] + (unsigned)w.c; s = w;
  t = t + f1((s.a[1] ^ t), (r / (g[3] | 1u)), (r << (p0 & 31u)), (a / (r | 1u)), (a % (t | 1u)), (s.a[1] ^ a));
  return t ^ a ^ b ^ u ^ r;
}
int main(void) { int i; unsigned t; t = 0u; for (i = 0; i < 40; i++) { t = t * 3u + f2((unsigned)i, t); putchar((int)(t & 63u) + 32); } num(t); return (int)(t & 127u); }
