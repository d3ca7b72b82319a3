#pragma once

extern volatile int seen;

namespace inner {

inline int once(int x)
{
    seen = x;
    return seen + 1;
}

inline int twist(int a, int b)
{
    int all = a;
    for (int i = 0; i < b; i++)
        all ^= once(all) >> i;
    return all;
}

}
