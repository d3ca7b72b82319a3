// One of many translation units, numbered by UNIT. Unit 0 has the entry point; the others may be reached from it or not.
#include "layers.h"

#define JOIN(a, b) a##b
#define NAME(unit) JOIN(unit_, unit)

#if UNIT == 0
volatile int seen;
extern "C" int start()
{
    return Nest<3>::into(seen);
}
#else
extern "C" int NAME(UNIT)(int x)
{
    Layer layer{x};
    for (int i = 0; i < UNIT; i++)
        layer.lay(Nest<UNIT % 24 + 1>::into(i));
    return layer.peel(UNIT);
}
#endif
