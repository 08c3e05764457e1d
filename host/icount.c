/* A plugin for qemu's emulator: counts the instructions that the emulated program executes, and says
 * so on standard error when it ends. host/count builds and uses it.
 *
 * The emulator translates a program in blocks that are executed from their start to their end. Each
 * block is told once, when it is translated, to add its length to the count at every execution.
 *
 * Debian has the emulator without its header, so what is used of it is declared here (its API 1). */
#include <inttypes.h>
#include <stdint.h>
#include <stdio.h>

typedef uint64_t plugin_id;
struct qemu_plugin_tb;   /* a block of instructions */
struct qemu_info_t;

enum { ADD_U64 = 0 };    /* the only operation that a block can be told to do without a call */

void qemu_plugin_register_vcpu_tb_trans_cb(plugin_id, void (*)(plugin_id, struct qemu_plugin_tb *));
void qemu_plugin_register_vcpu_tb_exec_inline(struct qemu_plugin_tb *, int operation, void *number, uint64_t value);
void qemu_plugin_register_atexit_cb(plugin_id, void (*)(plugin_id, void *), void *);
size_t qemu_plugin_tb_n_insns(const struct qemu_plugin_tb *);

int qemu_plugin_version = 1;
int qemu_plugin_install(plugin_id, const struct qemu_info_t *, int, char **);

static uint64_t executed;

static void at_translation(plugin_id id, struct qemu_plugin_tb *block)
{
    (void)id;
    qemu_plugin_register_vcpu_tb_exec_inline(block, ADD_U64, &executed, qemu_plugin_tb_n_insns(block));
}

static void at_end(plugin_id id, void *nothing)
{
    (void)id;
    (void)nothing;
    fprintf(stderr, "instructions %" PRIu64 "\n", executed);
}

int qemu_plugin_install(plugin_id id, const struct qemu_info_t *info, int argc, char **argv)
{
    (void)info;
    (void)argc;
    (void)argv;
    qemu_plugin_register_vcpu_tb_trans_cb(id, at_translation);
    qemu_plugin_register_atexit_cb(id, at_end, NULL);
    return 0;
}
