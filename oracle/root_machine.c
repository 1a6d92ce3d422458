/*
 * The processor's own square root, as a function like the library's: in a unit of its own, so that
 * the driver can't inline it. It is compiled with -fno-math-errno and linked without the mathematics
 * library, so it is the instruction or it does not link.
 */
#include <math.h>

float machine_root(float x);

float machine_root(float x) {
    return sqrtf(x);
}
