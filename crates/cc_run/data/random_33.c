void num(unsigned n) { if (n >= 10u) num(n / 10u); putchar((int)(n % 10u) + 48); }
void show(int n) { if (n < 0) { putchar('-'); num(-(unsigned)n); } else num((unsigned)n); putchar(10); }
unsigned g[16]; struct m { char c; unsigned a[4]; char d; } s, w;
unsigned f0(register unsigned p0, unsigned p1, unsigned p2) {
  unsigned a; unsigned b; unsigned t; register unsigned u; register unsigned r; char c; int i;
  a = p0; b = p1; t = 0u; u = 1u; r = 2u; c = 0; i = 0;
  s.a[(p0 * g[a & 15u]) & 3u] = (((unsigned)(g[3] != b)) & ((unsigned)i % (g[a & 15u] | 1u))); s.c = (char)t; w = s; t = t + w.a[(31u + t) & 3u] + (unsigned)w.c; s = w;
  t = u;
  g[((unsigned)((int)s.a[1] >= (int)g[a & 15u])) & 15u] = ((unsigned)((int)(unsigned)i >> (int)(((s.a[1] & r) >> (((unsigned)(p2 && p2)) & 31u)) & 31u)));
  for (i = 0; i < 4; i++) { b = r; t = t + (unsigned)c; }
  t = ((unsigned)((((unsigned)((int)p1 >> (int)(b & 31u))) >> ((3u + b) & 31u)) > (((unsigned)((int)a >> (int)(s.a[1] & 31u))) ^ u)));
  for (i = 0; i < 4; i++) { a = ((p0 + a) ? ((unsigned)c ^ t) : (r >> (t & 31u))); t = t + b; }
  t = ((((unsigned)((int)u >= (int)t)) & ((unsigned)((int)p0 >> (int)(p2 & 31u)))) % (t | 1u));
  c = (char)((s.a[1] ? r : (unsigned)c) & (u - t)); t = t ^ (unsigned)c;
  for (i = 0; i < 5; i++) { b = ((g[a & 15u] + (unsigned)i) & ((unsigned)((int)(unsigned)i < (int)(unsigned)c))); t = t + s.a[1]; }
  g[(s.a[1] << (r & 31u)) & 15u] = r;
  return t ^ a ^ b ^ u ^ r;
}
unsigned f1(register unsigned p0, unsigned p1, unsigned p2, unsigned p3) {
  unsigned a; unsigned b; unsigned t; unsigned u; register unsigned r; char c; int i;
  a = p0; b = p1; t = 0u; u = 1u; r = 2u; c = 0; i = 0;
  g[((unsigned)(p1 != g[a & 15u])) & 15u] = (((p2 % (4294967295u | 1u)) >> ((g[a & 15u] << (g[3] & 31u)) & 31u)) % (((p1 ? s.a[1] : g[3]) | (r ^ g[3])) | 1u));
  t = (((t * p0) >> (((unsigned)(a == g[3])) & 31u)) - (((unsigned)((int)p3 >> (int)(b & 31u))) >> ((p0 | s.a[1]) & 31u)));
  r = ((unsigned)(((unsigned)((int)p0 >> (int)(((unsigned)((int)p2 >> (int)(t & 31u))) & 31u))) != ((u / (p1 | 1u)) >> (((unsigned)i % (p3 | 1u)) & 31u))));
  t = (p2 / (((g[a & 15u] * g[a & 15u]) + (t * (unsigned)i)) | 1u));
  s.a[(t ? p2 : u) & 3u] = ((g[3] * r) | (3886074948u - u)); s.c = (char)t; w = s; t = t + w.a[(t + p3) & 3u] + (unsigned)w.c; s = w;
  c = (char)((unsigned)((int)(a | 65535u) >> (int)(((unsigned)((int)p0 >> (int)((unsigned)c & 31u))) & 31u))); t = t ^ (unsigned)c;
  for (i = 0; i < 2; i++) { a = ((s.a[1] + p1) >> ((a ^ s.a[1]) & 31u)); t = t + p2; }
  t = (p0 >> (((b & p2) ^ ((unsigned)(s.a[1] > p1))) & 31u));
  switch ((int)((unsigned)i & 3u)) { case 0: a = a + 1u; case 1: r = r + ((unsigned)((int)(0u + a) >= (int)t)); break; case 2: b = b ^ t; default: u = u - 1u; }
  c = (char)((t | g[a & 15u]) ? ((unsigned)((int)b >> (int)(b & 31u))) : ((unsigned)((int)p2 >> (int)(a & 31u)))); t = t ^ (unsigned)c;
  b = (((p0 / (r | 1u)) + t) ? ((g[a & 15u] - (unsigned)c) * ((unsigned)(t == r))) : ((unsigned)((int)(unsigned)c == (int)(1u % (t | 1u)))));
  t = t + f0((p0 + g[a & 15u]), p3, g[3]);
  return t ^ a ^ b ^ u ^ r;
}
unsigned f2(unsigned p0, unsigned p1, unsigned p2, unsigned p3, unsigned p4) {
  unsigned a; unsigned b; unsigned t; unsigned u; register unsigned r; char c; int i;
  a = p0; b = p1; t = 0u; u = 1u; r = 2u; c = 0; i = 0;
  s.a[(b + g[a & 15u]) & 3u] = ((unsigned)((p0 ? b : p0) > ((unsigned)(char)p2))); s.c = (char)t; w = s; t = t + w.a[((unsigned)((int)r >> (int)(p3 & 31u))) & 3u] + (unsigned)w.c; s = w;
  switch ((int)((p2 | p1) & 3u)) { case 0: a = a + 1u; case 1: r = r + ((unsigned)((int)(g[3] & (unsigned)i) < (int)(7u / (p4 | 1u)))); break; case 2: b = b ^ t; default: u = u - 1u; }
  for (i = 0; i < 3; i++) { b = (((unsigned)c ^ p0) << ((g[3] + s.a[1]) & 31u)); t = t + p0; }
  s.a[((unsigned)((int)a >> (int)(p0 & 31u))) & 3u] = g[3]; s.c = (char)t; w = s; t = t + w.a[(p0 * (unsigned)i) & 3u] + (unsigned)w.c; s = w;
  g[(g[a & 15u] * t) & 15u] = g[3];
  t = t + f1((2047136488u - s.a[1]), ((unsigned)c | p0), a, ((unsigned)((int)u >> (int)(a & 31u))));
  return t ^ a ^ b ^ u ^ r;
}
unsigned f3(register unsigned p0, register unsigned p1, unsigned p2) {
  unsigned a; unsigned b; unsigned t; unsigned u; register unsigned r; char c; int i;
  a = p0; b = p1; t = 0u; u = 1u; r = 2u; c = 0; i = 0;
  s.a[((unsigned)((int)p2 >> (int)(t & 31u))) & 3u] = ((r ^ u) << (((unsigned)i + 255u) & 31u)); s.c = (char)t; w = s; t = t + w.a[(r / (t | 1u)) & 3u] + (unsigned)w.c; s = w;
  if (a) { s.a[(31u + s.a[1]) & 3u] = (4294967295u + g[3]); s.c = (char)t; w = s; t = t + w.a[(unsigned)c & 3u] + (unsigned)w.c; s = w; } else { if (((b | u) << ((g[a & 15u] / (7u | 1u)) & 31u))) { a = (((255u ^ p0) ? p2 : (u + s.a[1])) * ((unsigned)((int)p0 >> (int)(((unsigned)((int)s.a[1] >> (int)((unsigned)i & 31u))) & 31u)))); } else { b = (((unsigned)(char)g[a & 15u]) * (((unsigned)c - (unsigned)i) ? u : (p1 % (r | 1u)))); } }
  if (((unsigned)(((unsigned)(r && g[a & 15u])) != (u ^ a)))) { switch ((int)((unsigned)c & 3u)) { case 0: a = a + 1u; case 1: r = r + ((unsigned)(char)(a ^ r)); break; case 2: b = b ^ t; default: u = u - 1u; } } else { for (i = 0; i < 5; i++) { a = ((p1 ^ p1) & (u ? s.a[1] : g[3])); t = t + u; } }
  switch ((int)((g[a & 15u] * g[3]) & 3u)) { case 0: a = a + 1u; case 1: r = r + ((unsigned)((int)(p1 << (g[a & 15u] & 31u)) > (int)(a + u))); break; case 2: b = b ^ t; default: u = u - 1u; }
  if (((g[a & 15u] + (unsigned)c) & ((unsigned)(char)s.a[1]))) { for (i = 0; i < 5; i++) { r = (31u ? (u ? 7u : 255u) : (g[3] - g[3])); t = t + a; } } else { g[(p2 * b) & 15u] = ((((unsigned)((int)a == (int)r)) & (b >> (p0 & 31u))) << (t & 31u)); }
  t = ((unsigned)(char)((unsigned)((int)((unsigned)((unsigned)i < b)) <= (int)(g[a & 15u] >> (7u & 31u)))));
  if (p1) { c = (char)((b % (s.a[1] | 1u)) >> (t & 31u)); t = t ^ (unsigned)c; } else { s.a[(b >> (p0 & 31u)) & 3u] = ((unsigned)((int)g[3] >> (int)((65535u * p0) & 31u))); s.c = (char)t; w = s; t = t + w.a[g[3] & 3u] + (unsigned)w.c; s = w; }
  r = (((b % (t | 1u)) + (u - b)) | p2);
  b = (unsigned)i;
  t = t + f2((u ? t : g[3]), (u | s.a[1]), (g[3] | p2), (g[a & 15u] * (unsigned)c), a);
  return t ^ a ^ b ^ u ^ r;
}
int main(void) { int i; unsigned t; t = 0u; for (i = 0; i < 40; i++) { t = t * 3u + f3((unsigned)i, t, 90u); putchar((int)(t & 63u) + 32); } num(t); return (int)(t & 127u); }
