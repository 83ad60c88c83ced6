// C11 7.20. The types of 64 bits, int8_t, int16_t and uint16_t can't be had: no type has these bits exactly. The `least`
// and `fast` ones are the smallest type that is wide enough.
#ifndef QSC_STDINT_H
#define QSC_STDINT_H
typedef unsigned char uint8_t;
typedef int int32_t;
typedef unsigned uint32_t;

typedef int int_least8_t, int_least16_t, int_least32_t;
typedef unsigned char uint_least8_t;
typedef unsigned uint_least16_t, uint_least32_t;

typedef int int_fast8_t, int_fast16_t, int_fast32_t;
typedef unsigned uint_fast8_t, uint_fast16_t, uint_fast32_t;

#define UINT8_MAX 255
#define INT32_MAX 2147483647
#define INT32_MIN (-2147483647 - 1)
#define UINT32_MAX 4294967295u
#define SIZE_MAX 4294967295u

#define UINT32_C(n) n##u
#define INT32_C(n) n
#define UINT8_C(n) n
#endif
