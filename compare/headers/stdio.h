#ifndef STDIO_H
#define STDIO_H
#include <stddef.h>
typedef struct file FILE;
extern FILE *stdin, *stdout, *stderr;
int printf(const char *format, ...) __attribute__((format(printf, 1, 2)));
int snprintf(char *to, size_t size, const char *format, ...) __attribute__((format(printf, 3, 4)));
int puts(const char *text);
int fputs(const char *text, FILE *to);
int putchar(int c);
int fflush(FILE *f);
size_t fread(void *to, size_t size, size_t count, FILE *from);
size_t fwrite(const void *from, size_t size, size_t count, FILE *to);
#endif
