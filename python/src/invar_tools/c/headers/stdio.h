#ifndef STDIO_H_OF_INVAR
#define STDIO_H_OF_INVAR
#include <stdarg.h>
#include <stddef.h>
typedef struct file_of_the_machine FILE;
typedef long fpos_t;
extern FILE *stdin, *stdout, *stderr;
#define EOF (-1)
#define BUFSIZ 8192
#define SEEK_SET 0
#define SEEK_CUR 1
#define SEEK_END 2
int printf(const char *format, ...), fprintf(FILE *file, const char *format, ...), sprintf(char *to, const char *format, ...);
int snprintf(char *to, size_t size, const char *format, ...), scanf(const char *format, ...), sscanf(const char *from, const char *format, ...);
int puts(const char *text), fputs(const char *text, FILE *file), putchar(int byte), putc(int byte, FILE *file), fputc(int byte, FILE *file);
int getchar(void), getc(FILE *file), fgetc(FILE *file), fclose(FILE *file), fflush(FILE *file), feof(FILE *file), ferror(FILE *file);
char *fgets(char *to, int size, FILE *file);
FILE *fopen(const char *name, const char *mode);
size_t fread(void *to, size_t size, size_t count, FILE *file), fwrite(const void *from, size_t size, size_t count, FILE *file);
void perror(const char *text);
#endif
