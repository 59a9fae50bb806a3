void num(unsigned n) { if (n >= 10u) num(n / 10u); putchar((int)(n % 10u) + 48); }
void show(int n) { if (n < 0) { putchar('-'); num(-(unsigned)n); } else num((unsigned)n); putchar(10); }
unsigned g[16]; struct m { char c; unsigned a[4]; char d; } s, w;
unsigned f0(unsigned p0, unsigned p1, unsigned p2, unsigned p3, unsigned p4, unsigned p5, register unsigned p6, register unsigned p7) {
  unsigned a; unsigned b; unsigned t; register unsigned u; register unsigned r; char c; int i;
  a = p0; b = p1; t = 0u; u = 1u; r = 2u; c = 0; i = 0;
  for (i = 0; i < 4; i++) { a = (((unsigned)(p7 && t)) - (g[a & 15u] | b)); t = t + p1; }
  switch ((int)((p3 + u) & 3u)) { case 0: a = a + 1u; case 1: r = r + (g[a & 15u] * (a / ((unsigned)c | 1u))); break; case 2: b = b ^ t; default: u = u - 1u; }
  c = (char)(g[3] << (((unsigned)((int)p4 >= (int)p6)) & 31u)); t = t ^ (unsigned)c;
  switch ((int)(((unsigned)((unsigned)i < a)) & 3u)) { case 0: a = a + 1u; case 1: r = r + (((unsigned)((int)p4 >> (int)(p3 & 31u))) % ((p5 % (p5 | 1u)) | 1u)); break; case 2: b = b ^ t; default: u = u - 1u; }
  if (((unsigned)(char)(p2 | (unsigned)c))) { t = (((unsigned)i * ((unsigned)(s.a[1] <= b))) ? ((a + s.a[1]) ^ (u & p5)) : (((unsigned)i - r) * ((unsigned)(char)(unsigned)i))); } else { for (i = 0; i < 2; i++) { a = ((u >> (t & 31u)) ^ p6); t = t + r; } }
  t = ((unsigned)((int)((p2 | p6) / ((p7 - g[3]) | 1u)) < (int)((b & s.a[1]) + (1u << (p4 & 31u)))));
  a = (((unsigned)((g[a & 15u] << (7u & 31u)) != b)) | ((b * a) ^ t));
  if (((p3 + (unsigned)c) ^ ((unsigned)(char)2u))) { s.a[(31u ? a : p0) & 3u] = ((unsigned)((int)(s.a[1] << (p3 & 31u)) >> (int)(b & 31u))); s.c = (char)t; w = s; t = t + w.a[(r ? 31u : r) & 3u] + (unsigned)w.c; s = w; } else { s.a[(p1 - g[3]) & 3u] = (((unsigned)(char)r) & ((unsigned)i >> (a & 31u))); s.c = (char)t; w = s; t = t + w.a[((unsigned)(char)(unsigned)i) & 3u] + (unsigned)w.c; s = w; }
  t = p5;
  c = (char)(r ^ (p7 ? u : (unsigned)i)); t = t ^ (unsigned)c;
  if (((b / (3u | 1u)) + ((unsigned)c | g[3]))) { t = ((unsigned)((int)(((unsigned)((int)b >> (int)(p4 & 31u))) / ((p3 & p7) | 1u)) >> (int)(((u + p7) & ((unsigned)i % (p2 | 1u))) & 31u))); } else { a = (((unsigned)((int)(p3 % (u | 1u)) >> (int)((p5 * p2) & 31u))) ? ((p6 / ((unsigned)c | 1u)) % ((p7 & (unsigned)i) | 1u)) : ((g[a & 15u] | p5) % (((unsigned)(char)g[3]) | 1u))); }
  return t ^ a ^ b ^ u ^ r;
}
unsigned f1(register unsigned p0, register unsigned p1, register unsigned p2, unsigned p3) {
  unsigned a; unsigned b; unsigned t; unsigned u; register unsigned r; char c; int i;
  a = p0; b = p1; t = 0u; u = 1u; r = 2u; c = 0; i = 0;
  t = ((((unsigned)((int)g[3] <= (int)s.a[1])) % (p3 | 1u)) ? ((unsigned)(char)(b + a)) : p1);
  u = ((unsigned)(((a ^ b) ? ((unsigned)((int)u >> (int)(u & 31u))) : ((unsigned)((int)p1 >> (int)(u & 31u)))) >= ((31u + u) - (a | g[a & 15u]))));
  c = (char)(((unsigned)((int)(unsigned)i >> (int)(u & 31u))) ? p1 : ((unsigned)(r != p0))); t = t ^ (unsigned)c;
  switch ((int)(((unsigned)i - a) & 3u)) { case 0: a = a + 1u; case 1: r = r + ((g[3] + (unsigned)i) | (p0 % ((unsigned)i | 1u))); break; case 2: b = b ^ t; default: u = u - 1u; }
  for (i = 0; i < 2; i++) { a = (((unsigned)(p2 >= t)) | (t / (r | 1u))); t = t + p2; }
  g[(b & g[3]) & 15u] = (((unsigned)(((unsigned)(char)p3) >= (b >> (s.a[1] & 31u)))) / (((g[a & 15u] ^ p1) * (a ^ p0)) | 1u));
  g[((unsigned)(char)u) & 15u] = (((p0 * g[3]) % (((unsigned)(u != u)) | 1u)) - (p3 + g[a & 15u]));
  g[p3 & 15u] = (((1u - 65535u) ^ ((unsigned)((unsigned)c < p0))) * (t << (((unsigned)((int)u >> (int)(g[a & 15u] & 31u))) & 31u)));
  t = t + f0((s.a[1] * g[3]), (p1 / (a | 1u)), (p3 * r), ((unsigned)i / (a | 1u)), ((unsigned)i | t), (u * p0), ((unsigned)(char)p1), (p3 / (b | 1u)));
  return t ^ a ^ b ^ u ^ r;
}
unsigned f2(unsigned p0, register unsigned p1, unsigned p2, register unsigned p3) {
  unsigned a; unsigned b; unsigned t; register unsigned u; register unsigned r; char c; int i;
  a = p0; b = p1; t = 0u; u = 1u; r = 2u; c = 0; i = 0;
  g[s.a[1] & 15u] = (p3 & u);
  g[1u & 15u] = p0;
  g[(p1 & u) & 15u] = g[3];
  a = ((((unsigned)(char)a) * ((unsigned)(u != u))) * ((a << (r & 31u)) | p0));
  g[(t * (unsigned)i) & 15u] = ((p0 + (u % (3u | 1u))) * ((4294967295u - 2147483648u) << ((1u & p3) & 31u)));
  if (((unsigned)i | (u * r))) { s.a[((unsigned)(char)g[3]) & 3u] = ((b ^ r) ^ a); s.c = (char)t; w = s; t = t + w.a[((unsigned)(char)r) & 3u] + (unsigned)w.c; s = w; } else { r = (((p0 | p0) | (t ? u : b)) & ((p2 - r) ^ (p1 % (r | 1u)))); }
  g[(p0 - s.a[1]) & 15u] = ((((unsigned)(p3 || t)) ^ (t ? p1 : g[3])) / (((unsigned)((int)(r ? p3 : t) <= (int)(g[3] >> ((unsigned)c & 31u)))) | 1u));
  g[(a | p3) & 15u] = ((unsigned)(char)((unsigned)((int)u >> (int)(((unsigned)((int)b < (int)r)) & 31u))));
  t = t + f1(((unsigned)i ^ g[3]), (p2 << (u & 31u)), (t + b), (b >> (p2 & 31u)));
  return t ^ a ^ b ^ u ^ r;
}
unsigned f3(register unsigned p0, register unsigned p1, register unsigned p2, unsigned p3, unsigned p4, register unsigned p5, unsigned p6) {
  unsigned a; unsigned b; unsigned t; unsigned u; register unsigned r; char c; int i;
  a = p0; b = p1; t = 0u; u = 1u; r = 2u; c = 0; i = 0;
  s.a[(g[3] - (unsigned)i) & 3u] = (((unsigned)(char)p1) - (p1 | a)); s.c = (char)t; w = s; t = t + w.a[(p5 % (g[a & 15u] | 1u)) & 3u] + (unsigned)w.c; s = w;
  for (i = 0; i < 2; i++) { a = ((g[3] ? p0 : 4294967295u) / (((unsigned)(4294967295u < p0)) | 1u)); t = t + p6; }
  u = (t << (((u ^ p2) << ((2147483648u - p2) & 31u)) & 31u));
  for (i = 0; i < 3; i++) { b = ((p2 / (g[a & 15u] | 1u)) ^ (p3 & g[a & 15u])); t = t + t; }
  for (i = 0; i < 3; i++) { u = p4; t = t + p3; }
  if ((((unsigned)(char)(unsigned)i) ^ (p4 >> (p5 & 31u)))) { if ((((unsigned)c << ((unsigned)c & 31u)) & (1u << (s.a[1] & 31u)))) { u = (((unsigned)((int)(p2 / (p1 | 1u)) >> (int)((g[3] | p6) & 31u))) & p0); } else { t = (((p2 ? p2 : (unsigned)i) ^ (unsigned)c) - (((unsigned)(char)p5) * ((unsigned)i & (unsigned)i))); } } else { a = (((b ? s.a[1] : b) - (p6 / (p1 | 1u))) / (((unsigned)((int)t != (int)(p0 / (p0 | 1u)))) | 1u)); }
  for (i = 0; i < 4; i++) { b = ((unsigned)((p5 * u) == ((unsigned)i & p1))); t = t + r; }
  g[(s.a[1] + p0) & 15u] = ((unsigned)c >> (p1 & 31u));
  c = (char)((unsigned)(char)((unsigned)((int)b < (int)u))); t = t ^ (unsigned)c;
  for (i = 0; i < 3; i++) { b = (unsigned)i; t = t + p3; }
  t = t + f2((u | p2), (t % (r | 1u)), (b | p4), ((unsigned)(p2 >= u)));
  return t ^ a ^ b ^ u ^ r;
}
int main(void) { int i; unsigned t; t = 0u; for (i = 0; i < 40; i++) { t = t * 3u + f3((unsigned)i, t, 11u, 39u, 93u, 57u, 33u); putchar((int)(t & 63u) + 32); } num(t); return (int)(t & 127u); }
