/* A qemu plugin that counts the guest instructions which a program executes and writes the count to standard error as the program ends:
   a figure that can be repeated to the last digit, where a time can't. The declarations are those of qemu's plugin interface,
   version 1 (qemu 7.2), of which only these are needed. */
#include <inttypes.h>
#include <stddef.h>
#include <stdio.h>

typedef uint64_t plugin_id;
struct block;
struct instruction;
extern void qemu_plugin_register_vcpu_tb_trans_cb(plugin_id, void (*)(plugin_id, struct block *));
extern size_t qemu_plugin_tb_n_insns(const struct block *);
extern struct instruction *qemu_plugin_tb_get_insn(const struct block *, size_t);
extern void qemu_plugin_register_vcpu_insn_exec_inline(struct instruction *, int add, void *counter, uint64_t amount);
extern void qemu_plugin_register_atexit_cb(plugin_id, void (*)(plugin_id, void *), void *);

__attribute__((visibility("default"))) int qemu_plugin_version = 1;

static uint64_t executed;

/* Each instruction by itself: a block that ends before an instruction which reaches into the next page counts that one too, though the next block executes
   it, and a loop may turn there. */
static void on_translation(plugin_id id, struct block *b) {
    (void)id;
    for (size_t i = 0; i < qemu_plugin_tb_n_insns(b); i++) qemu_plugin_register_vcpu_insn_exec_inline(qemu_plugin_tb_get_insn(b, i), 0, &executed, 1);
}

static void on_end(plugin_id id, void *unused) {
    (void)id;
    (void)unused;
    fprintf(stderr, "instructions %" PRIu64 "\n", executed);
}

__attribute__((visibility("default"))) int qemu_plugin_install(plugin_id id, const void *info, int argc, char **argv) {
    (void)info;
    (void)argc;
    (void)argv;
    qemu_plugin_register_vcpu_tb_trans_cb(id, on_translation);
    qemu_plugin_register_atexit_cb(id, on_end, 0);
    return 0;
}
