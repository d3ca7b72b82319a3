// Functions that inline one another over three files: this one, layers_inner.h and layers_body.inc.
#pragma once
#include "layers_inner.h"

extern volatile int seen;

struct Layer {
    int at;

    inline int peel(int n) const
    {
        return inner::twist(at, n) + inner::once(n);
    }

    inline void lay(int n)
    {
        // This part of the body is in a file of its own, so that the line program changes files within a function.
#include "layers_body.inc"
        at += inner::once(n);
    }
};

template <int depth>
struct Nest {
    __attribute__((always_inline)) static inline int into(int x)
    {
        seen = x;
        return Nest<depth - 1>::into(x + depth) * 3 +
               inner::once(x);
    }
};

template <>
struct Nest<0> {
    static inline int into(int x) { return seen ^ x; }
};
