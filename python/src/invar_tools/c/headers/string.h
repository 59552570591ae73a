#ifndef STRING_H_OF_INVAR
#define STRING_H_OF_INVAR
#include <stddef.h>
size_t strlen(const char *text);
int strcmp(const char *left, const char *right), strncmp(const char *left, const char *right, size_t most);
int memcmp(const void *left, const void *right, size_t size);
void *memcpy(void *to, const void *from, size_t size), *memset(void *to, int byte, size_t size);
void *memmove(void *to, const void *from, size_t size);
char *strcpy(char *to, const char *from), *strcat(char *to, const char *from), *strchr(const char *text, int byte);
#endif
