/* A plugin for qemu-user: counts the instructions that a program executes and writes their number to standard error as it ends.
   With blocks=FILE it also writes a line for each block of code: address, instructions, times run.

   Only the part of QEMU's plugin interface (version 1) that is used is declared here, so no header is needed. */
#include <stdbool.h>
#include <stddef.h>
#include <stdint.h>
#include <stdio.h>
#include <stdlib.h>
#include <string.h>

typedef uint64_t plugin_id;
struct qemu_plugin_tb;
struct qemu_plugin_insn;
enum { ADD_U64 };

void qemu_plugin_register_vcpu_tb_trans_cb(plugin_id, void (*)(plugin_id, struct qemu_plugin_tb *));
void qemu_plugin_register_vcpu_tb_exec_inline(struct qemu_plugin_tb *, int, void *, uint64_t);
void qemu_plugin_register_atexit_cb(plugin_id, void (*)(plugin_id, void *), void *);
size_t qemu_plugin_tb_n_insns(const struct qemu_plugin_tb *);
uint64_t qemu_plugin_tb_vaddr(const struct qemu_plugin_tb *);

#define SHOWN __attribute__((visibility("default")))

SHOWN int qemu_plugin_version = 1;

/* A block of instructions that run one after the other. */
struct block {
    uint64_t address, instructions, runs;
    struct block *next;
};

static struct block *blocks;
static const char *blocks_file;

/* Each block gets a counter that the emulator adds 1 to. */
static void translated(plugin_id id, struct qemu_plugin_tb *tb) {
    (void)id;
    struct block *b = calloc(1, sizeof *b);
    if (!b) abort();
    b->address = qemu_plugin_tb_vaddr(tb);
    b->instructions = qemu_plugin_tb_n_insns(tb);
    b->next = blocks;
    blocks = b;
    qemu_plugin_register_vcpu_tb_exec_inline(tb, ADD_U64, &b->runs, 1);
}

static void ended(plugin_id id, void *unused) {
    (void)id;
    (void)unused;
    FILE *f = blocks_file ? fopen(blocks_file, "w") : NULL;
    uint64_t count = 0;
    for (struct block *b = blocks; b; b = b->next) {
        count += b->instructions * b->runs;
        if (f) fprintf(f, "%llx %llu %llu\n", (unsigned long long)b->address, (unsigned long long)b->instructions, (unsigned long long)b->runs);
    }
    if (f) fclose(f);
    fprintf(stderr, "instructions %llu\n", (unsigned long long)count);
}

SHOWN int qemu_plugin_install(plugin_id id, const void *info, int argc, char **argv) {
    (void)info;
    for (int i = 0; i < argc; i++)
        if (!strncmp(argv[i], "blocks=", 7)) blocks_file = strdup(argv[i] + 7);
    qemu_plugin_register_vcpu_tb_trans_cb(id, translated);
    qemu_plugin_register_atexit_cb(id, ended, NULL);
    return 0;
}
