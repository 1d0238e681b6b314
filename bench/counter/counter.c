/*
 * A plugin for the emulator qemu-x86_64: counts the x86-64 instructions that a program executes, block by
 * block. Built by the machine's own compiler, since it runs inside the emulator.
 *
 *     qemu-x86_64 -plugin counter.so,out=FILE -d plugin PROGRAM
 *
 * FILE gets one line for each translated block: address, instructions in it, instructions executed.
 */
#include <inttypes.h>
#include <stdbool.h>
#include <stdio.h>
#include <stdlib.h>
#include <string.h>

/* What this plugin uses of the emulator's plugin interface, version 1. Debian has no package with its header. */
typedef uint64_t qemu_plugin_id_t;
struct qemu_plugin_tb;
struct qemu_info;
enum qemu_plugin_op { QEMU_PLUGIN_INLINE_ADD_U64 };
typedef void (*on_translation)(qemu_plugin_id_t id, struct qemu_plugin_tb *block);
typedef void (*on_end)(qemu_plugin_id_t id, void *userdata);
void qemu_plugin_register_vcpu_tb_trans_cb(qemu_plugin_id_t id, on_translation call);
void qemu_plugin_register_vcpu_tb_exec_inline(struct qemu_plugin_tb *block, enum qemu_plugin_op op,
                                              void *number, uint64_t add);
void qemu_plugin_register_atexit_cb(qemu_plugin_id_t id, on_end call, void *userdata);
size_t qemu_plugin_tb_n_insns(const struct qemu_plugin_tb *block);
uint64_t qemu_plugin_tb_vaddr(const struct qemu_plugin_tb *block);

#define EXPORTED __attribute__((visibility("default")))

EXPORTED int qemu_plugin_version = 1;

/* One translated block. Each has its own memory, since the emulator keeps a pointer to the count. */
struct counted {
    uint64_t address, instructions, executed;
    struct counted *before;
};

static struct counted *last;
static char *out_name;

static void count_block(qemu_plugin_id_t id, struct qemu_plugin_tb *block)
{
    (void)id;
    struct counted *c = calloc(1, sizeof *c);
    if (!c)
        abort();
    c->address = qemu_plugin_tb_vaddr(block);
    c->instructions = qemu_plugin_tb_n_insns(block);
    c->before = last;
    last = c;
    qemu_plugin_register_vcpu_tb_exec_inline(block, QEMU_PLUGIN_INLINE_ADD_U64, &c->executed, c->instructions);
}

static void write_counts(qemu_plugin_id_t id, void *userdata)
{
    (void)id;
    (void)userdata;
    FILE *out = fopen(out_name, "w");
    if (!out)
        abort();
    for (struct counted *c = last; c; c = c->before)
        fprintf(out, "%016" PRIx64 " %" PRIu64 " %" PRIu64 "\n", c->address, c->instructions, c->executed);
    fclose(out);
}

EXPORTED int qemu_plugin_install(qemu_plugin_id_t id, const struct qemu_info *info, int argc, char **argv)
{
    (void)info;
    for (int i = 0; i < argc; i++)
        if (strncmp(argv[i], "out=", 4) == 0)
            out_name = strdup(argv[i] + 4);
    if (!out_name)
        return -1;
    qemu_plugin_register_vcpu_tb_trans_cb(id, count_block);
    qemu_plugin_register_atexit_cb(id, write_counts, NULL);
    return 0;
}
