// C11 7.21, of which there are the byte in and the byte out.
#ifndef QSC_STDIO_H
#define QSC_STDIO_H
#define EOF (-1)
int putchar(int c);
int getchar(void);
#endif
