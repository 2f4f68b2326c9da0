/* What comes often in this file has names of one or two letters. Types: numbers without a sign of 32 and 64 bits, fractions, and numbers with
 * a sign; and functions that give nothing or one of these. */
typedef uint32_t I;
typedef uint64_t L;
typedef double F;
typedef int32_t T;
typedef int64_t U;
#define VF static void
#define IF static I
#define LF static L
#define FF static F
/* An address of the proved code is an address of this program, as a number. */
#define AT(a) ((unsigned char *)(uintptr_t)(a))
#define ADDRESS(p) ((L)(uintptr_t)(p))
/* The part of the stack that a function takes, whose end is S. */
#define SK(n) L stack[n];const L S=ADDRESS(stack+n);
/* Words of C, a jump on a condition, what the proof shows never to be reached, and memory that is freed on a condition: that of a text or a
 * list, whose third number says whether there is any. */
#define C case
#define G goto
#define R return
#define Y default
#define J(condition, label) if (condition) goto label;
#define X for (;;) abort()
#define K(condition, p) if (condition) drop(p);
#define V(a) K(Q(a + 16), Q(a))

/* A function with much of the stack, which would be its callers' too if it became a part of them. */
#ifdef __GNUC__
#define APART __attribute__((noinline))
#else
#define APART
#endif

/* What reads numbers of 1, 2, 4 and 8 bytes, without and with a sign, and what writes them: B H W Q, and A E M N. */
static inline I B(L a) { return *AT(a); }

static inline I H(L a) { uint16_t x; memcpy(&x, AT(a), 2); return x; }

static inline I W(L a) { I x; memcpy(&x, AT(a), 4); return x; }

static inline L Q(L a) { L x; memcpy(&x, AT(a), 8); return x; }

static inline T l1s(L a) { return (int8_t)*AT(a); }

static inline T l2s(L a) { int16_t x; memcpy(&x, AT(a), 2); return x; }

static inline T l4s(L a) { T x; memcpy(&x, AT(a), 4); return x; }

static inline F lf(L a) { F x; memcpy(&x, AT(a), 8); return x; }

static inline void A(L a, L x) { *AT(a) = (unsigned char)x; }

static inline void E(L a, L v) { const uint16_t x = (uint16_t)v; memcpy(AT(a), &x, 2); }

static inline void M(L a, L v) { const I x = (I)v; memcpy(AT(a), &x, 4); }

static inline void N(L a, L x) { memcpy(AT(a), &x, 8); }

/* Several numbers of 8 bytes in a row: given ones, and those of another place, from the lowest up or from the highest down. */
static inline void N2(L a, L b, L c) { N(a, b), N(a + 8, c); }

static inline void N3(L a, L b, L c, L d) { N(a, b), N2(a + 8, c, d); }

static inline void N4(L a, L b, L c, L d, L e) { N(a, b), N3(a + 8, c, d, e); }

static inline void N5(L a, L b, L c, L d, L e, L f) { N(a, b), N4(a + 8, c, d, e, f); }

static inline void N6(L a, L b, L c, L d, L e, L f, L g) { N(a, b), N5(a + 8, c, d, e, f, g); }

static inline void Y2(L a, L b) { N(a, Q(b)), N(a + 8, Q(b + 8)); }

static inline void Y3(L a, L b) { N(a, Q(b)), Y2(a + 8, b + 8); }

static inline void Y4(L a, L b) { N(a, Q(b)), Y3(a + 8, b + 8); }

static inline void Y5(L a, L b) { N(a, Q(b)), Y4(a + 8, b + 8); }

static inline void Y6(L a, L b) { N(a, Q(b)), Y5(a + 8, b + 8); }

static inline void V2(L a, L b) { N(a + 8, Q(b + 8)), N(a, Q(b)); }

static inline void V3(L a, L b) { N(a + 16, Q(b + 16)), V2(a, b); }

static inline void V4(L a, L b) { N(a + 24, Q(b + 24)), V3(a, b); }

static inline void V5(L a, L b) { N(a + 32, Q(b + 32)), V4(a, b); }

static inline void V6(L a, L b) { N(a + 40, Q(b + 40)), V5(a, b); }

static inline void sf(L a, F x) { memcpy(AT(a), &x, 8); }

/* Many bytes: copied, where the places may overlap and where they do not, and each the same number or 0. */
static inline void copy(L to, L from, L n) { memmove(AT(to), AT(from), (size_t)n); }

static inline void O(L to, L from, L n) { memcpy(AT(to), AT(from), (size_t)n); }

static inline void fill(L to, I v, L n) { memset(AT(to), (int)(v & 255), (size_t)n); }

static inline void Z(L to, L n) { memset(AT(to), 0, (size_t)n); }

/* How many bits are 0 before the first and after the last one that is 1, and bits turned round. */
static inline L clz8(L x) {
    L n = 0;
    if (!x) return 64;
    if (!(x >> 32)) n += 32, x <<= 32;
    if (!(x >> 48)) n += 16, x <<= 16;
    if (!(x >> 56)) n += 8, x <<= 8;
    if (!(x >> 60)) n += 4, x <<= 4;
    if (!(x >> 62)) n += 2, x <<= 2;
    return n + !(x >> 63);
}

static inline I clz4(I x) { return x ? (I)(clz8(x) - 32) : 32; }

static inline L ctz8(L x) { return x ? 63 - clz8(x & (0 - x)) : 64; }

static inline I ctz4(I x) { return x ? (I)ctz8(x) : 32; }

static inline I rotl4(I x, I n) { n &= 31; return x << n | x >> (-n & 31); }

static inline I rotr4(I x, I n) { n &= 31; return x >> n | x << (-n & 31); }

static inline L rotl8(L x, L n) { n &= 63; return x << n | x >> (-n & 63); }

static inline L rotr8(L x, L n) { n &= 63; return x >> n | x << (-n & 63); }

/* A number as a fraction; its bits as one, and back. A product is rounded before anything is added to it. */
static inline F whole(L x) { return (F)(I)(x >> 32) * 4294967296.0 + (F)(I)x; }

static inline F real(L x) { F f; memcpy(&f, &x, 8); return f; }

static inline L bits(F f) { L x; memcpy(&x, &f, 8); return x; }

static inline F mul(F x, F y) { volatile F z = x * y; return z; }

/* The heap of the proved code over C's: whether there is memory, and where. */
static inline void given(L to, void *p) { N(to, p != NULL), N(to + 8, p ? ADDRESS(p) : 16); }

static inline void take(L to, L n, L align) { given(to, malloc((size_t)(n ? n : align))); }

static inline void grow(L to, L p, L kept, L n, L align) { (void)kept, given(to, realloc(AT(p), (size_t)(n ? n : align))); }

static inline void drop(L p) { free(AT(p)); }

/* The product of numbers of 128 bits, the lower half first, and their shifts to the left and the right. */
static inline void multiplied(L to, L a, L a1, L b, L b1) {
    const L x = (I)a, y = a >> 32, u = (I)b, v = b >> 32, low = x * u, one = y * u + (low >> 32), two = x * v + (I)one;
    N(to, two << 32 | (I)low);
    N(to + 8, y * v + (one >> 32) + (two >> 32) + a * b1 + a1 * b);
}

static inline void shifted_left(L to, L a, L b, I n) {
    n &= 127;
    if (n >= 64) b = a << (n - 64), a = 0;
    else if (n) b = b << n | a >> (64 - n), a <<= n;
    N(to, a), N(to + 8, b);
}

static inline void shifted_right(L to, L a, L b, I n) {
    n &= 127;
    if (n >= 64) a = b >> (n - 64), b = 0;
    else if (n) a = a >> n | b << (64 - n), b >>= n;
    N(to, a), N(to + 8, b);
}
