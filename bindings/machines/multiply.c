/* The compiler's function for the product of two numbers of 128 bits. A program for WebAssembly
 * brings its own. */
#include <stdint.h>

__extension__ typedef unsigned __int128 wide;
wide __multi3(wide a, wide b);

wide __multi3(wide a, wide b)
{
    const uint64_t LOW = 0xFFFFFFFF;
    uint64_t x = (uint64_t)a, y = (uint64_t)b;
    uint64_t low = (x & LOW) * (y & LOW);
    uint64_t one = (x >> 32) * (y & LOW) + (low >> 32), other = (x & LOW) * (y >> 32) + (one & LOW);
    uint64_t high = (x >> 32) * (y >> 32) + (one >> 32) + (other >> 32);
    high += x * (uint64_t)(b >> 64) + (uint64_t)(a >> 64) * y;
    return (wide)high << 64 | (other << 32 | (low & LOW));
}
