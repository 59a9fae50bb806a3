/* The lines of the input, sorted, each with its length; its status is a sum over what it printed. */
extern int getchar(void);
extern int putchar(int);

struct line {
    char *text;
    short length;
    unsigned char first;
};

static char store[4000];
static struct line lines[100];
static signed char worth[256];
static unsigned sum;

static void put(int c)
{
    sum = (sum ^ (unsigned)c) * 16777619u;
    putchar(c);
}

static void number(int n)
{
    if (n < 0) {
        put('-');
        n = -n;
    }
    if (n >= 10)
        number(n / 10);
    put('0' + n % 10);
}

static int before(const struct line *a, const struct line *b)
{
    int i;
    for (i = 0; i < a->length && i < b->length; i++)
        if (worth[(unsigned char)a->text[i]] != worth[(unsigned char)b->text[i]])
            return worth[(unsigned char)a->text[i]] < worth[(unsigned char)b->text[i]];
    return a->length < b->length;
}

static void sort(int from, int to)
{
    int low = from, high = to;
    struct line middle, other;
    if (to - from < 1)
        return;
    middle = lines[(from + to) / 2];
    while (low <= high) {
        while (before(&lines[low], &middle))
            low++;
        while (before(&middle, &lines[high]))
            high--;
        if (low <= high) {
            other = lines[low];
            lines[low++] = lines[high];
            lines[high--] = other;
        }
    }
    sort(from, high);
    sort(low, to);
}

int main(void)
{
    int count = 0, used = 0, c, i, j, balance = 0;
    for (i = 0; i < 256; i++)
        worth[i] = (signed char)(i * 5 - 128);
    while ((c = getchar()) != -1 && count < 100 && used < 4000) {
        if (lines[count].text == 0)
            lines[count].text = store + used;
        if (c == '\n') {
            lines[count].first = (unsigned char)lines[count].text[0];
            count++;
        } else {
            store[used++] = (char)c;
            lines[count].length++;
        }
    }
    sort(0, count - 1);
    for (i = 0; i < count; i++) {
        number(lines[i].length);
        put(':');
        for (j = 0; j < lines[i].length; j++)
            put(lines[i].text[j]);
        put('\n');
        balance += worth[lines[i].first] * lines[i].length % 17 - (balance >> 3);
    }
    number(balance);
    put('\n');
    return (int)(sum >> 8 & 127);
}
