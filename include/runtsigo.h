/* Coupons and price alignment of peso swaps, in whole centavos (1/100 peso).
 *
 * A rate point is 10^-8; a mill is 10^-5 of a year's rate. Every rounding is to
 * the nearest whole number, halves away from zero. All limits are inclusive.
 * A call answers RUNTSIGO_REFUSED exactly when a figure is outside its limits.
 * Whether the long side pays or receives a coupon is left to the caller.
 */
#ifndef RUNTSIGO_H
#define RUNTSIGO_H

#include <stdint.h>

#define RUNTSIGO_REFUSED INT64_MIN

#ifdef __cplusplus
extern "C" {
#endif

/* The fixed leg's coupon.
 * millions: of pesos, 1..100,000
 * rate:     points, -10,000,000..100,000,000
 * days:     1..366 */
int64_t runtsigo_fixed(int64_t millions, int64_t rate, int64_t days);

/* The variable leg's coupon; figures as for the fixed leg. */
int64_t runtsigo_variable(int64_t millions, int64_t rate, int64_t days);

/* The dollar leg's coupon: rounded to whole cents, then to centavos.
 * thousands: of dollars, 1..100,000
 * rate:      points, -10,000,000..100,000,000
 * days:      1..366
 * trm:       centavos per dollar, 1..2,000,000 */
int64_t runtsigo_dollars(int64_t thousands, int64_t rate, int64_t days, int64_t trm);

/* The price alignment, with its own sign: negative for a positive NPV.
 * npv:       centavos, -10^13..10^13
 * overnight: mills, 0..50,000
 * days:      1..10 */
int64_t runtsigo_alignment(int64_t npv, int64_t overnight, int64_t days);

#ifdef __cplusplus
}
#endif

#endif
