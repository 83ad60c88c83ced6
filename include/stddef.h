// C11 7.19. There is no `void *`, so NULL is 0; `offsetof` and `max_align_t` can't be had.
#ifndef QSC_STDDEF_H
#define QSC_STDDEF_H
typedef unsigned size_t;
typedef int ptrdiff_t;
#define NULL 0
#endif
