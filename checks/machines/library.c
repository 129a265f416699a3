/* A play as a library: in a module of WebAssembly for wasm.js, or only linked. */
#include "sum.h"

#include "../../bindings/machines/multiply.c"

const char *play_here(void);

const char *play_here(void)
{
    return play(CALLS);
}
