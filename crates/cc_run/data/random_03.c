void num(unsigned n) { if (n >= 10u) num(n / 10u); putchar((int)(n % 10u) + 48); }
void show(int n) { if (n < 0) { putchar('-'); num(-(unsigned)n); } else num((unsigned)n); putchar(10); }
unsigned g[16]; struct m { char c; unsigned a[4]; char d; } s, w;
unsigned f0(register unsigned p0, unsigned p1, unsigned p2, register unsigned p3, unsigned p4, register unsigned p5) {
  unsigned a; unsigned b; unsigned t; unsigned u; register unsigned r; char c; int i;
  a = p0; b = p1; t = 0u; u = 1u; r = 2u; c = 0; i = 0;
  u = ((((unsigned)(255u && p1)) ? ((unsigned)i ? r : t) : ((unsigned)((int)p4 >= (int)r))) / (((g[3] * (unsigned)i) >> (t & 31u)) | 1u));
  c = (char)(((unsigned)(b >= (unsigned)i)) | (b << ((unsigned)c & 31u))); t = t ^ (unsigned)c;
  if (((p2 >> (p2 & 31u)) * (s.a[1] | (unsigned)i))) { s.a[((unsigned)(r != p1)) & 3u] = ((a * p4) % ((p0 >> ((unsigned)i & 31u)) | 1u)); s.c = (char)t; w = s; t = t + w.a[((unsigned)((int)r > (int)p0)) & 3u] + (unsigned)w.c; s = w; } else { c = (char)(g[3] + s.a[1]); t = t ^ (unsigned)c; }
  r = (((p1 >> ((unsigned)c & 31u)) + (p3 % (p3 | 1u))) >> ((((unsigned)c ? 65535u : p0) - 0u) & 31u));
  c = (char)((a * u) - p1); t = t ^ (unsigned)c;
  g[(unsigned)i & 15u] = ((((unsigned)((int)7u <= (int)p5)) ^ (b + p5)) * g[3]);
  t = ((unsigned)((int)((unsigned)((int)(a >> (p4 & 31u)) >> (int)(((unsigned)((int)p1 != (int)p3)) & 31u))) <= (int)((r % (p1 | 1u)) ^ (1u % (u | 1u)))));
  s.a[s.a[1] & 3u] = ((p0 ^ p5) | (0u << (u & 31u))); s.c = (char)t; w = s; t = t + w.a[s.a[1] & 3u] + (unsigned)w.c; s = w;
  b = ((unsigned)((int)((unsigned)((int)((unsigned)(255u || p3)) != (int)((unsigned)((int)p5 == (int)p4)))) != (int)(((unsigned)c - (unsigned)i) & (p1 % (r | 1u)))));
  return t ^ a ^ b ^ u ^ r;
}
unsigned f1(register unsigned p0, register unsigned p1, unsigned p2, unsigned p3, register unsigned p4) {
  unsigned a; unsigned b; unsigned t; unsigned u; register unsigned r; char c; int i;
  a = p0; b = p1; t = 0u; u = 1u; r = 2u; c = 0; i = 0;
  u = (((s.a[1] - r) / ((p0 + t) | 1u)) | p4);
  for (i = 0; i < 2; i++) { a = ((unsigned)((r + (unsigned)i) != (p1 + (unsigned)i))); t = t + p0; }
  s.a[(u ? (unsigned)c : p1) & 3u] = (((unsigned)(g[3] > g[3])) * (unsigned)i); s.c = (char)t; w = s; t = t + w.a[((unsigned)i * t) & 3u] + (unsigned)w.c; s = w;
  switch ((int)((u - u) & 3u)) { case 0: a = a + 1u; case 1: r = r + ((unsigned)(((unsigned)((int)r == (int)g[3])) || (p3 % ((unsigned)c | 1u)))); break; case 2: b = b ^ t; default: u = u - 1u; }
  s.a[(g[a & 15u] << (s.a[1] & 31u)) & 3u] = ((unsigned)(char)((unsigned)c + p4)); s.c = (char)t; w = s; t = t + w.a[((unsigned)((int)b >> (int)(g[a & 15u] & 31u))) & 3u] + (unsigned)w.c; s = w;
  b = ((((unsigned)(65535u >= p3)) ^ (p2 << (b & 31u))) / (((unsigned)((int)((unsigned)((int)a >> (int)(p1 & 31u))) >> (int)(a & 31u))) | 1u));
  r = ((g[3] & p0) + p2);
  c = (char)(((unsigned)((int)p0 == (int)u)) / (p4 | 1u)); t = t ^ (unsigned)c;
  t = t + f0(((unsigned)i << (t & 31u)), a, (g[a & 15u] * 3u), ((unsigned)((int)p2 >> (int)(u & 31u))), (p1 >> (p3 & 31u)), ((unsigned)(char)g[3]));
  return t ^ a ^ b ^ u ^ r;
}
int main(void) { int i; unsigned t; t = 0u; for (i = 0; i < 40; i++) { t = t * 3u + f1((unsigned)i, t, 19u, 21u, 90u); putchar((int)(t & 63u) + 32); } num(t); return (int)(t & 127u); }
