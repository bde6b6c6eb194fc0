/* lane FILE..: which of the good files the fast lane takes, and which it leaves to the exact passes (D104).
 *
 * No call of the unit says that, and none need: the exact passes begin with one function of the archive, which the script `lane` calls
 * exact_passes. Once it is known which files are good, its first bytes are replaced by a jump back to here.
 */
#define _GNU_SOURCE
#include <setjmp.h>
#include <stdint.h>
#include <stdio.h>
#include <stdlib.h>
#include <string.h>
#include <sys/mman.h>
#include <unistd.h>

#include "kto.h"

extern void exact_passes(void);

static jmp_buf back;

static void left(void) { longjmp(back, 1); }

/* mov rax, left; jmp rax */
static void replace(void)
{
    uint8_t jump[12] = { 0x48, 0xB8, 0, 0, 0, 0, 0, 0, 0, 0, 0xFF, 0xE0 };
    void (*to)(void) = left;
    memcpy(jump + 2, &to, sizeof to);
    void (*exact)(void) = exact_passes;
    uintptr_t from;
    memcpy(&from, &exact, sizeof from);
    uintptr_t page = (uintptr_t)sysconf(_SC_PAGESIZE);
    uintptr_t start = from & ~(page - 1);
    if (mprotect((void *)start, from - start + page, PROT_READ | PROT_WRITE | PROT_EXEC) != 0) {
        perror("lane: the archive's code can't be changed");
        exit(2);
    }
    memcpy((void *)from, jump, sizeof jump);
}

struct file {
    const char *name;
    uint8_t *bytes;
    uint64_t size;
};

static struct file taken_in(const char *name)
{
    struct file file = { name, malloc(KTO_LIMIT + 1), 0 };
    FILE *from = fopen(name, "rb");
    if (file.bytes == NULL || from == NULL) {
        perror(name);
        exit(2);
    }
    file.size = fread(file.bytes, 1, KTO_LIMIT + 1, from);
    fclose(from);
    return file;
}

static int is_good(const struct file *file)
{
    uint64_t row, place;
    return kto_size(file->bytes, file->size, &row, &place) == KTO_ACCEPTED;
}

int main(int count, char **names)
{
    struct file *good = calloc((size_t)count, sizeof *good);
    volatile int goods = 0, lanes = 0, at;
    if (good == NULL)
        return 2;
    for (at = 1; at < count; at++) {
        struct file file = taken_in(names[at]);
        if (is_good(&file))
            good[goods++] = file;
        else
            free(file.bytes);
    }
    replace();
    volatile uint64_t bytes = 0, passed = 0;
    for (at = 0; at < goods; at++) {
        bytes += good[at].size;
        if (setjmp(back) == 0 && is_good(&good[at])) {
            lanes++;
            passed += good[at].size;
        } else {
            printf("left to the exact passes: %s\n", good[at].name);
        }
    }
    printf("the lane takes %d of %d good files, %llu of their %llu bytes; %d files are not good\n", lanes, goods, (unsigned long long)passed,
        (unsigned long long)bytes, count - 1 - goods);
    return 0;
}
