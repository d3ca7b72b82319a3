// Numbers of every width: code that is far away, since bytes are skipped, and lines that are, since #line says so.
volatile int seen;

#define SKIP(bytes) __asm__ volatile(".skip " #bytes ", 0x90")

__attribute__((always_inline)) static inline void near(int x)
{
    seen = x;
    SKIP(15);
    seen = x + 1;
    SKIP(16);
    seen = x + 2;
}

__attribute__((always_inline)) static inline void middling(int x)
{
    seen = x;
    SKIP(130);
    near(x);
    SKIP(16370);
    seen = x + 1;
}

__attribute__((always_inline)) static inline void distant(int x)
{
    seen = x;
    SKIP(16384);
    middling(x);
    SKIP(70000);
    seen = x + 1;
    SKIP(2200000);
    seen = x + 2;
}

__attribute__((always_inline)) static inline void leaping(int x)
{
    seen = x;
#line 60
    seen = x + 1;
#line 110
    seen = x + 2;
#line 9000
    seen = x + 3;
#line 17500
    near(x);
#line 1500000
    seen = x + 4;
#line 40
    seen = x + 5;
#line 8300
    seen = x + 6;
#line 8100
    seen = x + 7;
}

#line 2000
void far_loop(int n)
{
    for (int i = 0; i < n; i++) {
        near(i);
        SKIP(200);
        leaping(i);
        SKIP(20000);
        near(n);
    }
}

int start(void)
{
    far_loop(seen);
    distant(seen);
    SKIP(100);
    leaping(seen);
    middling(seen);
    return seen;
}
