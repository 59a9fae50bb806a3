void num(unsigned n) { if (n >= 10u) num(n / 10u); putchar((int)(n % 10u) + 48); }
void show(int n) { if (n < 0) { putchar('-'); num(-(unsigned)n); } else num((unsigned)n); putchar(10); }
unsigned g[16]; struct m { char c; unsigned a[4]; char d; } s, w;
unsigned f0(unsigned p0, unsigned p1, unsigned p2, register unsigned p3) {
  unsigned a; unsigned b; unsigned t; unsigned u; register unsigned r; char c; int i;
  a = p0; b = p1; t = 0u; u = 1u; r = 2u; c = 0; i = 0;
  b = ((((unsigned)(char)u) * (65535u % (p0 | 1u))) & (unsigned)c);
  a = (((a ^ s.a[1]) & ((unsigned)(char)t)) * (((unsigned)((int)p0 >> (int)(3u & 31u))) & a));
  c = (char)((unsigned)(((unsigned)((int)p3 > (int)p2)) && ((unsigned)c & (unsigned)c))); t = t ^ (unsigned)c;
  c = (char)a; t = t ^ (unsigned)c;
  a = ((unsigned)((int)(((unsigned)(u || p2)) ? (g[3] * g[3]) : (0u - t)) >> (int)(((unsigned)((int)(unsigned)c > (int)((unsigned)((int)u >> (int)(b & 31u))))) & 31u)));
  return t ^ a ^ b ^ u ^ r;
}
unsigned f1(unsigned p0, register unsigned p1, register unsigned p2, register unsigned p3, unsigned p4, register unsigned p5, unsigned p6) {
  unsigned a; unsigned b; unsigned t; register unsigned u; register unsigned r; char c; int i;
  a = p0; b = p1; t = 0u; u = 1u; r = 2u; c = 0; i = 0;
  r = ((((unsigned)c - p2) >> ((p0 * p1) & 31u)) & (((unsigned)((int)(unsigned)c >> (int)(p3 & 31u))) ^ (p5 * (unsigned)i)));
  g[(s.a[1] / (p5 | 1u)) & 15u] = ((((unsigned)(a > (unsigned)i)) ^ p1) ^ r);
  for (i = 0; i < 2; i++) { b = (((unsigned)((int)p6 >> (int)(p1 & 31u))) >> ((t * g[3]) & 31u)); t = t + g[a & 15u]; }
  a = s.a[1];
  s.a[(s.a[1] - g[3]) & 3u] = (unsigned)c; s.c = (char)t; w = s; t = t + w.a[((unsigned)(p5 == g[3])) & 3u] + (unsigned)w.c; s = w;
  if ((r ? (p5 % ((unsigned)c | 1u)) : ((unsigned)c ^ r))) { c = (char)((p0 ^ g[3]) | ((unsigned)((int)p3 >> (int)(s.a[1] & 31u)))); t = t ^ (unsigned)c; } else { for (i = 0; i < 5; i++) { u = (((unsigned)c % ((unsigned)c | 1u)) - (p2 ? p4 : u)); t = t + p6; } }
  b = (r * ((b + p0) % (((unsigned)c - b) | 1u)));
  for (i = 0; i < 2; i++) { r = ((u | p1) * (g[a & 15u] & t)); t = t + g[3]; }
  g[p6 & 15u] = (((p5 & t) * (p6 ? p1 : g[3])) + ((r / (p0 | 1u)) * (p2 * p2)));
  t = t + f0(a, (u & b), (t ^ p2), (p6 ? (unsigned)i : p4));
  return t ^ a ^ b ^ u ^ r;
}
int main(void) { int i; unsigned t; t = 0u; for (i = 0; i < 40; i++) { t = t * 3u + f1((unsigned)i, t, 60u, 85u, 20u, 15u, 73u); putchar((int)(t & 63u) + 32); } num(t); return (int)(t & 127u); }
