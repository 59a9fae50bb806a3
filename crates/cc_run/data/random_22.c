void num(unsigned n) { if (n >= 10u) num(n / 10u); putchar((int)(n % 10u) + 48); }
void show(int n) { if (n < 0) { putchar('-'); num(-(unsigned)n); } else num((unsigned)n); putchar(10); }
unsigned g[16]; struct m { char c; unsigned a[4]; char d; } s, w;
unsigned f0(unsigned p0, register unsigned p1, unsigned p2) {
  unsigned a; unsigned b; unsigned t; unsigned u; register unsigned r; char c; int i;
  a = p0; b = p1; t = 0u; u = 1u; r = 2u; c = 0; i = 0;
  t = ((((unsigned)c * r) * ((unsigned)i * (unsigned)c)) | ((unsigned)((int)(a | r) != (int)((unsigned)(g[3] && (unsigned)c)))));
  c = (char)b; t = t ^ (unsigned)c;
  c = (char)((a + t) | ((unsigned)((int)p0 >> (int)(b & 31u)))); t = t ^ (unsigned)c;
  b = ((unsigned)c ^ ((p1 + p1) ^ ((unsigned)((int)(unsigned)i >> (int)(t & 31u)))));
  c = (char)(p0 + t); t = t ^ (unsigned)c;
  if (((p0 / (p0 | 1u)) ? ((unsigned)((int)4294967295u == (int)g[a & 15u])) : s.a[1])) { for (i = 0; i < 2; i++) { a = (u % (((unsigned)(char)g[a & 15u]) | 1u)); t = t + p1; } } else { u = (((unsigned)((int)((unsigned)i % (s.a[1] | 1u)) >> (int)((g[3] ^ p0) & 31u))) | (u * (unsigned)i)); }
  r = (b * ((p2 >> (p2 & 31u)) % ((u >> (g[3] & 31u)) | 1u)));
  t = t;
  u = ((unsigned)((int)((unsigned)((int)((unsigned)i / (t | 1u)) <= (int)(a << (s.a[1] & 31u)))) < (int)((unsigned)((int)t != (int)((unsigned)(char)p0)))));
  a = ((unsigned)(char)((s.a[1] ? (unsigned)c : u) - (s.a[1] - p2)));
  return t ^ a ^ b ^ u ^ r;
}
unsigned f1(register unsigned p0, register unsigned p1, unsigned p2, unsigned p3, unsigned p4, unsigned p5, unsigned p6) {
  unsigned a; unsigned b; unsigned t; register unsigned u; register unsigned r; char c; int i;
  a = p0; b = p1; t = 0u; u = 1u; r = 2u; c = 0; i = 0;
  b = (((p1 ^ g[3]) - p0) >> ((((unsigned)((int)4294967295u >> (int)(u & 31u))) + ((unsigned)(p0 > p2))) & 31u));
  for (i = 0; i < 2; i++) { b = (((unsigned)((int)a <= (int)g[a & 15u])) + u); t = t + p4; }
  g[(t ^ p3) & 15u] = (((unsigned)((int)((unsigned)((int)p5 >> (int)(g[a & 15u] & 31u))) >> (int)((p4 - g[a & 15u]) & 31u))) % (((s.a[1] ? s.a[1] : g[3]) * (p1 ? p1 : u)) | 1u));
  if (((p0 / (s.a[1] | 1u)) << ((p6 ? p3 : p5) & 31u))) { r = (((3u | (unsigned)i) + (a & p2)) | (((unsigned)i ? s.a[1] : b) & (p1 * p0))); } else { a = (((p5 + p5) / ((p4 % (p2 | 1u)) | 1u)) / ((((unsigned)((int)p1 >> (int)((unsigned)i & 31u))) / ((p1 - p2) | 1u)) | 1u)); }
  g[(p1 | p3) & 15u] = (((p0 - p6) | (g[3] / (b | 1u))) * ((unsigned)((int)((unsigned)((int)(unsigned)i >> (int)(b & 31u))) != (int)(r ^ p6))));
  t = t + f0((2u | g[3]), (a + p3), (t % (b | 1u)));
  return t ^ a ^ b ^ u ^ r;
}
int main(void) { int i; unsigned t; t = 0u; for (i = 0; i < 40; i++) { t = t * 3u + f1((unsigned)i, t, 48u, 38u, 51u, 5u, 12u); putchar((int)(t & 63u) + 32); } num(t); return (int)(t & 127u); }
