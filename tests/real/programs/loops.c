// Inlined functions inside loops, in the order that gives negative line deltas: the last to be inlined comes first.
volatile int seen;

static inline int clamp(int value, int low, int high)
{
    if (value < low)
        return low;
    if (value > high)
        return high;
    return value;
}

__attribute__((always_inline)) static inline int later(int x);
__attribute__((always_inline)) static inline void last(int *at, int count);

int sum(int count)
{
    int all = 0;
    for (int i = 0; i < count; i++) {
        all += later(i) * 3;
        seen = all;
    }
    return all;
}

void fill(int *at, int count)
{
    for (int i = 0; i < count; i++)
        for (int k = i; k < count; k++) {
            at[k] = clamp(at[i] - later(k), -100, 100);
            if (at[k] == later(i))
                last(at, k);
        }
    last(at, count);
}

__attribute__((always_inline)) static inline int later(int x)
{
    int changed = x * 7;

    if (changed > 100) {
        seen = changed;
        changed ^= 5;
    }
    // The macro's operands are on lines of their own.
#define EITHER(a, b) \
    ((seen & 1) ?    \
         (a) :       \
         (b))
    return EITHER(
        changed +
            seen,
        clamp(
            changed,
            -7,
            7));
}

__attribute__((always_inline)) static inline void last(int *at, int count)
{
    int n = count;
    while (n > 0) {
        n--;
        switch (at[n] & 3) {
        case 0:
            at[n] = later(n);
            break;
        case 1:
            seen = clamp(n, 1, 3);
            break;
        case 2:
            at[n] = -n;
            continue;
        default:
            return;
        }
        seen = at[n];
    }
}

static int numbers[64];

int start(void)
{
    fill(numbers, 64);
    return sum(seen);
}
