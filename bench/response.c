/*
 * The yardstick for a response: the same sequence by a plain loop. Neither the point nor a coefficient is tested. It is
 * compiled with -ffp-contract=off, or it would be another sequence. RESPONSE is the name of the function, by which two
 * compilers can be told apart.
 */
#include <stddef.h>
#include <stdint.h>

typedef struct point {
    double real, imag;
} point;

point RESPONSE(const int64_t *coeffs, size_t count, point at) {
    double real = 0, imag = 0;
    for (size_t i = count; i > 0; i--) {
        double next = (real * at.real - imag * at.imag) + (double)coeffs[i - 1];
        imag = real * at.imag + imag * at.real;
        real = next;
    }
    return (point){real, imag};
}
