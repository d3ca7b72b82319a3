// Inlining over several files, and with layers_more.cpp over two translation units that inline the same functions.
#include "layers.h"

volatile int seen;

int more(int n);

static inline int both(Layer layer, int n)
{
    layer.lay(n);
    return layer.peel(n) + Nest<6>::into(n);
}

extern "C" int start()
{
    int all = 0;
    for (int i = 0; i < seen; i++)
        all += both(Layer{i}, all);
    return all + more(all);
}
