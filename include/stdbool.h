// C11 7.18. There is no type of one bit: a `bool` is an `int` and keeps any value, so store `x != 0`.
#ifndef QSC_STDBOOL_H
#define QSC_STDBOOL_H
#define bool int
#define true 1
#define false 0
#define __bool_true_false_are_defined 1
#endif
