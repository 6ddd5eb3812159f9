/* A plug-in of qemu's user emulation: counts the instructions that the program executes. At a mark, a system call that no
   kernel has, it writes 'mark NUMBER COUNT' to standard error. What it uses of qemu is declared here, since Debian ships no
   header for plug-ins. Interface 1 is that of qemu 6 to 8; for 9 and later compile with -DINTERFACE=2. */
#include <inttypes.h>
#include <stddef.h>
#include <stdint.h>
#include <stdio.h>

#ifndef INTERFACE
#define INTERFACE 1
#endif
#define MARK 0x5A5A0001

typedef uint64_t plugin_id;
struct qemu_plugin_tb;
size_t qemu_plugin_tb_n_insns(const struct qemu_plugin_tb *);
void qemu_plugin_register_vcpu_tb_trans_cb(plugin_id, void (*)(plugin_id, struct qemu_plugin_tb *));
void qemu_plugin_register_vcpu_tb_exec_inline(struct qemu_plugin_tb *, int add, void *, uint64_t);
void qemu_plugin_register_vcpu_tb_exec_cb(struct qemu_plugin_tb *, void (*)(unsigned, void *), int flags, void *);
void qemu_plugin_register_vcpu_syscall_cb(plugin_id, void (*)(plugin_id, unsigned, int64_t, uint64_t, uint64_t, uint64_t,
                                                              uint64_t, uint64_t, uint64_t, uint64_t, uint64_t));

__attribute__((visibility("default"))) int qemu_plugin_version = INTERFACE;
static uint64_t executed;

#if INTERFACE > 1
static void add(unsigned processor, void *instructions) { executed += (uintptr_t)instructions; }
#endif

static void translated(plugin_id id, struct qemu_plugin_tb *block) {
    size_t instructions = qemu_plugin_tb_n_insns(block);
#if INTERFACE > 1
    qemu_plugin_register_vcpu_tb_exec_cb(block, add, 0, (void *)instructions);
#else
    qemu_plugin_register_vcpu_tb_exec_inline(block, 0, &executed, instructions);
#endif
}

static void called(plugin_id id, unsigned processor, int64_t number, uint64_t mark, uint64_t b, uint64_t c, uint64_t d,
                   uint64_t e, uint64_t f, uint64_t g, uint64_t h) {
    if (number == MARK) fprintf(stderr, "mark %" PRIu64 " %" PRIu64 "\n", mark, executed);
}

__attribute__((visibility("default"))) int qemu_plugin_install(plugin_id id, const void *info, int count, char **words) {
    qemu_plugin_register_vcpu_tb_trans_cb(id, translated);
    qemu_plugin_register_vcpu_syscall_cb(id, called);
    return 0;
}
