#ifndef UNISTD_H
#define UNISTD_H
#include <stddef.h>
typedef __PTRDIFF_TYPE__ ssize_t;
ssize_t read(int file, void *to, size_t n);
ssize_t write(int file, const void *from, size_t n);
int dup2(int file, int as);
int fork(void);
int execv(const char *program, char *const words[]);
_Noreturn void _exit(int status);
#endif
