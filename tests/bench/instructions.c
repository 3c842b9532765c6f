/* A qemu user-mode plugin that counts the instructions executed between two marks, or by the whole of a program without
   marks. A mark is a system call that no kernel has, so a program with marks runs without qemu too. Its argument is 0
   to start the count and 1 to end it; then the count is printed on standard error. The declarations are those of
   qemu's plugin interface, version 1. */
#include <inttypes.h>
#include <stdio.h>

enum { MARK = 0x4c4346 };

typedef uint64_t qemu_plugin_id_t;
struct qemu_plugin_tb;
struct qemu_plugin_insn;
enum qemu_plugin_op { QEMU_PLUGIN_INLINE_ADD_U64 };
typedef void (*block_callback)(qemu_plugin_id_t, struct qemu_plugin_tb *);
typedef void (*call_callback)(qemu_plugin_id_t, unsigned, int64_t, uint64_t, uint64_t, uint64_t, uint64_t, uint64_t,
                              uint64_t, uint64_t, uint64_t);
extern void qemu_plugin_register_vcpu_tb_trans_cb(qemu_plugin_id_t, block_callback);
extern void qemu_plugin_register_vcpu_syscall_cb(qemu_plugin_id_t, call_callback);
extern void qemu_plugin_register_atexit_cb(qemu_plugin_id_t, void (*)(qemu_plugin_id_t, void *), void *);
extern size_t qemu_plugin_tb_n_insns(const struct qemu_plugin_tb *);
extern struct qemu_plugin_insn *qemu_plugin_tb_get_insn(const struct qemu_plugin_tb *, size_t);
extern void qemu_plugin_register_vcpu_insn_exec_inline(struct qemu_plugin_insn *, enum qemu_plugin_op, void *,
                                                       uint64_t);

__attribute__((visibility("default"))) int qemu_plugin_version = 1;

static uint64_t executed, start;
static int marked;

/* Each instruction counts itself. A block's length would count one that crosses a page twice, since the block ends in
   front of it. */
static void translated(qemu_plugin_id_t id, struct qemu_plugin_tb *block) {
    (void)id;
    for (size_t i = 0; i < qemu_plugin_tb_n_insns(block); i++)
        qemu_plugin_register_vcpu_insn_exec_inline(qemu_plugin_tb_get_insn(block, i), QEMU_PLUGIN_INLINE_ADD_U64,
                                                   &executed, 1);
}

static void called(qemu_plugin_id_t id, unsigned cpu, int64_t number, uint64_t ends, uint64_t a2, uint64_t a3,
                   uint64_t a4, uint64_t a5, uint64_t a6, uint64_t a7, uint64_t a8) {
    (void)id, (void)cpu, (void)a2, (void)a3, (void)a4, (void)a5, (void)a6, (void)a7, (void)a8;
    if (number != MARK)
        return;
    marked = 1;
    if (ends)
        fprintf(stderr, "%" PRIu64 "\n", executed - start);
    else
        start = executed;
}

static void ended(qemu_plugin_id_t id, void *nothing) {
    (void)id, (void)nothing;
    if (!marked)
        fprintf(stderr, "%" PRIu64 "\n", executed);
}

__attribute__((visibility("default"))) int qemu_plugin_install(qemu_plugin_id_t id, const void *info, int count,
                                                               char **arguments) {
    (void)info, (void)count, (void)arguments;
    qemu_plugin_register_vcpu_tb_trans_cb(id, translated);
    qemu_plugin_register_vcpu_syscall_cb(id, called);
    qemu_plugin_register_atexit_cb(id, ended, NULL);
    return 0;
}
