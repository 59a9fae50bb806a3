void num(unsigned n) { if (n >= 10u) num(n / 10u); putchar((int)(n % 10u) + 48); }
void show(int n) { if (n < 0) { putchar('-'); num(-(unsigned)n); } else num((unsigned)n); putchar(10); }
int f(int a, char b, int c, unsigned d, int e, char g, int h, int i, int j, char k, int l, int m, int n, char o, int p, int q) { return a + 2*b + 3*c + 4*(int)d + 5*e + 6*g + 7*h + 8*i + 9*j + 10*k + 11*l + 12*m + 13*n + 14*o + 15*p + 16*q; }
int main(void) { show(f(1,(char)-2,3,4u,5,(char)200,7,8,9,(char)-10,11,12,13,(char)14,15,16)); return 0; }