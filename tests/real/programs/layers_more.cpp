#include "layers.h"

int more(int n)
{
    Layer layer{n};
    auto within = [&](int k) {
        layer.lay(k);
        return layer.peel(k);
    };
    if (n > 3)
        return within(n) - within(-n);
    return Nest<9>::into(within(n)) - Nest<4>::into(n);
}
