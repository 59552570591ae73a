#ifndef STDLIB_H_OF_INVAR
#define STDLIB_H_OF_INVAR
#include <stddef.h>
#define EXIT_SUCCESS 0
#define EXIT_FAILURE 1
#define RAND_MAX 2147483647
void *malloc(size_t size), *calloc(size_t count, size_t size), *realloc(void *old, size_t size);
void free(void *old), exit(int status), abort(void), srand(unsigned seed);
int abs(int value), atoi(const char *text), rand(void);
long labs(long value), atol(const char *text);
#endif
