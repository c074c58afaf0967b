/* The C functions of the crate symmetric_eigen_c. Written by hand to fit src/: nothing compares the two.
 *
 * Tables stand column by column. Each buffer is a pointer and its length in numbers; no two may overlap, and none may be null,
 * not even one of length 0. Every length is allowed: a wrong one is refused. The functions of complex numbers, and all that
 * solve, take memory by malloc. */
#ifndef SYMMETRIC_EIGEN_C_H
#define SYMMETRIC_EIGEN_C_H

#include <stddef.h>
#include <stdint.h>

/* number: 0 where the work was done, 255 where memory was wanting, else that of the refusal (docs/REFUSALS.md).
 * count: the passes, also of the refusals 7 and 8. row, column: of the entry that is refused 3. What is not borne is 0. */
struct symmetric_eigen_c_outcome {
    uint32_t number;
    uint32_t count;
    size_t row;
    size_t column;
};

struct symmetric_eigen_c_complex64 {
    double re;
    double im;
};

struct symmetric_eigen_c_complex32 {
    float re;
    float im;
};

/* Values (n) and vectors (n * n) of a table of side n (n * n), which is only read. A refusal writes nothing. */
#define SYMMETRIC_EIGEN_C_SOLVE(kind, number, real)                                                                       \
    struct symmetric_eigen_c_outcome symmetric_eigen_c_solve_##kind(                                                      \
        size_t n, const number *table, size_t table_length, real tolerance, uint32_t limit, real *values,                 \
        size_t values_length, number *vectors, size_t vectors_length)

SYMMETRIC_EIGEN_C_SOLVE(r64, double, double);
SYMMETRIC_EIGEN_C_SOLVE(r32, float, float);
SYMMETRIC_EIGEN_C_SOLVE(c64, struct symmetric_eigen_c_complex64, double);
SYMMETRIC_EIGEN_C_SOLVE(c32, struct symmetric_eigen_c_complex32, float);

/* Reduces a table of side n (n * n) where it stands, with its values (n), off-diagonal entries, signs (n - 1 each) and Q (n * n).
 * A refusal writes nothing. scratch (n - 1) is free in content; of complex numbers the call has its own. */
#define SYMMETRIC_EIGEN_C_REDUCE_REAL(kind, real)                                                                         \
    struct symmetric_eigen_c_outcome symmetric_eigen_c_reduce_##kind(                                                     \
        size_t n, real *table, size_t table_length, real *values, size_t values_length, real *offs, size_t offs_length,   \
        real *signs, size_t signs_length, real *scratch, size_t scratch_length, real *q, size_t q_length)

#define SYMMETRIC_EIGEN_C_REDUCE_COMPLEX(kind, complex, real)                                                             \
    struct symmetric_eigen_c_outcome symmetric_eigen_c_reduce_##kind(                                                     \
        size_t n, complex *table, size_t table_length, real *values, size_t values_length, real *offs,                    \
        size_t offs_length, complex *signs, size_t signs_length, complex *q, size_t q_length)

SYMMETRIC_EIGEN_C_REDUCE_REAL(r64, double);
SYMMETRIC_EIGEN_C_REDUCE_REAL(r32, float);
SYMMETRIC_EIGEN_C_REDUCE_COMPLEX(c64, struct symmetric_eigen_c_complex64, double);
SYMMETRIC_EIGEN_C_REDUCE_COMPLEX(c32, struct symmetric_eigen_c_complex32, float);

#endif
