/* What the examples need of <stdio.h>, for a compiler that comes without headers. */
#ifndef BARE_STDIO_H
#define BARE_STDIO_H

typedef struct file FILE;

extern FILE *stderr;

FILE *fopen(const char *name, const char *how);
__SIZE_TYPE__ fread(void *bytes, __SIZE_TYPE__ size, __SIZE_TYPE__ count, FILE *from);
int fclose(FILE *file);
int printf(const char *form, ...);
int fprintf(FILE *to, const char *form, ...);

#endif
