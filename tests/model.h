/* The calls of lamphiek.h once more, over the engine written by hand in C (bench/): what the library is held to.
 *
 * Each model_ call has the signature and the obligations of its lamphiek_ call, whose type declares it. Kept words
 * alone differ: the two engines keep what they need between gates each in its own way, so a state goes on only with
 * the engine that wrote it.
 *
 * A program written for lamphiek.h runs over the model, unchanged, when it is compiled with
 *     -DLAMPHIEK_MODEL -include tests/model.h -Iinclude -Ibench
 * and linked with tests/model.c, bench/workers.c and bench/dealer.c instead of the library.
 */
#ifndef MODEL_H
#define MODEL_H
#include "lamphiek.h"

extern __typeof__(lamphiek_split) model_split;
extern __typeof__(lamphiek_open) model_open;
extern __typeof__(lamphiek_check) model_check;
extern __typeof__(lamphiek_unused_a) model_unused_a;
extern __typeof__(lamphiek_unused_b) model_unused_b;
extern __typeof__(lamphiek_house) model_house;
extern __typeof__(lamphiek_load) model_load;
extern __typeof__(lamphiek_prepare) model_prepare;
extern __typeof__(lamphiek_start) model_start;
extern __typeof__(lamphiek_hear) model_hear;
extern __typeof__(lamphiek_day_quarters) model_day_quarters;
extern __typeof__(lamphiek_day_prepare) model_day_prepare;
extern __typeof__(lamphiek_day_start) model_day_start;
extern __typeof__(lamphiek_day_hear) model_day_hear;

#ifdef LAMPHIEK_MODEL
#define lamphiek_split model_split
#define lamphiek_open model_open
#define lamphiek_check model_check
#define lamphiek_unused_a model_unused_a
#define lamphiek_unused_b model_unused_b
#define lamphiek_house model_house
#define lamphiek_load model_load
#define lamphiek_prepare model_prepare
#define lamphiek_start model_start
#define lamphiek_hear model_hear
#define lamphiek_day_quarters model_day_quarters
#define lamphiek_day_prepare model_day_prepare
#define lamphiek_day_start model_day_start
#define lamphiek_day_hear model_day_hear
#endif
#endif
