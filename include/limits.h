// C11 5.2.4.2.1, of the types that there are.
#ifndef QSC_LIMITS_H
#define QSC_LIMITS_H
#define CHAR_BIT 8
#define CHAR_MIN 0
#define CHAR_MAX 255
#define UCHAR_MAX 255
#define INT_MIN (-2147483647 - 1)
#define INT_MAX 2147483647
#define UINT_MAX 4294967295u
#endif
