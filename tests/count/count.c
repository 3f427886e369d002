/* Counts the instructions that an x86-64 program runs under qemu-user, for machines where callgrind cannot run it:
 *
 *     qemu-x86_64 -plugin ./count.so PROGRAM      the count is the last line on standard error
 *
 * With COUNT_BLOCKS=FILE in the environment also a line for each run of straight code: address, instructions, how often. What it uses of
 * qemu's plugin interface (version 1) is declared here. */
#include <inttypes.h>
#include <stdio.h>
#include <stdlib.h>

struct qemu_plugin_tb;
struct qemu_plugin_insn;
typedef struct qemu_info_t qemu_info_t;
extern void qemu_plugin_register_vcpu_tb_trans_cb(uint64_t id, void (*found)(uint64_t, struct qemu_plugin_tb *));
extern void qemu_plugin_register_vcpu_tb_exec_inline(struct qemu_plugin_tb *tb, int add_u64, void *to, uint64_t number);
extern void qemu_plugin_register_atexit_cb(uint64_t id, void (*over)(uint64_t, void *), void *with);
extern size_t qemu_plugin_tb_n_insns(const struct qemu_plugin_tb *tb);
extern uint64_t qemu_plugin_tb_vaddr(const struct qemu_plugin_tb *tb);
extern struct qemu_plugin_insn *qemu_plugin_tb_get_insn(const struct qemu_plugin_tb *tb, size_t at);
extern const void *qemu_plugin_insn_data(const struct qemu_plugin_insn *insn);

int qemu_plugin_version = 1;

enum { MOST = 65536 };
static struct { uint64_t at, insns, runs; } seen[MOST];
static size_t used;

/* A further round of a repeated string instruction (memset, memcpy) starts a block of its own. It is no instruction more. */
static int further_round(const struct qemu_plugin_tb *tb) {
    const uint8_t *b = qemu_plugin_insn_data(qemu_plugin_tb_get_insn(tb, 0));
    if (qemu_plugin_tb_n_insns(tb) != 1 || b[0] != 0xf3) {
        return 0;
    }
    uint8_t op = (b[1] & 0xf0) == 0x40 ? b[2] : b[1];
    return (op & 0xfe) == 0xa4 || (op & 0xfe) == 0xaa;
}

static void found(uint64_t id, struct qemu_plugin_tb *tb) {
    (void)id;
    if (further_round(tb)) {
        return;
    }
    uint64_t at = qemu_plugin_tb_vaddr(tb), insns = qemu_plugin_tb_n_insns(tb);
    size_t i = 0;
    while (i < used && (seen[i].at != at || seen[i].insns != insns)) {
        i++;
    }
    if (i == MOST) {
        abort();
    }
    if (i == used) {
        seen[used].at = at;
        seen[used].insns = insns;
        used++;
    }
    qemu_plugin_register_vcpu_tb_exec_inline(tb, 0, &seen[i].runs, 1);
}

static void over(uint64_t id, void *with) {
    (void)id, (void)with;
    const char *name = getenv("COUNT_BLOCKS");
    FILE *blocks = name == NULL ? NULL : fopen(name, "w");
    uint64_t all = 0;
    for (size_t i = 0; i < used; i++) {
        all += seen[i].insns * seen[i].runs;
        if (blocks != NULL) {
            fprintf(blocks, "%" PRIx64 " %" PRIu64 " %" PRIu64 "\n", seen[i].at, seen[i].insns, seen[i].runs);
        }
    }
    if (blocks != NULL) {
        fclose(blocks);
    }
    fprintf(stderr, "%" PRIu64 "\n", all);
}

int qemu_plugin_install(uint64_t id, const qemu_info_t *info, int argc, char **argv) {
    (void)info, (void)argc, (void)argv;
    qemu_plugin_register_vcpu_tb_trans_cb(id, found);
    qemu_plugin_register_atexit_cb(id, over, NULL);
    return 0;
}
