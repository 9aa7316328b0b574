#ifndef FCNTL_H
#define FCNTL_H
enum { O_RDONLY = 0, O_WRONLY = 1 };
int open(const char *path, int how, ...);
#endif
