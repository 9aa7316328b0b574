#ifndef SYS_WAIT_H
#define SYS_WAIT_H
int waitpid(int process, int *status, int options);
#endif
