// A plugin for the emulator: adds up the instructions of every block that is run, by the function that the block is of, and
// writes them at the end, a line a function.
#include <inttypes.h>
#include <stdio.h>
#include <stdlib.h>
#include <string.h>

// What is used of version 1 of QEMU's interface, of which Debian has no header.
struct qemu_plugin_tb;
struct qemu_plugin_insn;
size_t qemu_plugin_tb_n_insns(const struct qemu_plugin_tb *);
struct qemu_plugin_insn *qemu_plugin_tb_get_insn(const struct qemu_plugin_tb *, size_t);
const char *qemu_plugin_insn_symbol(const struct qemu_plugin_insn *);
void qemu_plugin_register_vcpu_tb_trans_cb(uint64_t, void (*)(uint64_t, struct qemu_plugin_tb *));
void qemu_plugin_register_vcpu_tb_exec_inline(struct qemu_plugin_tb *, int operation, void *, uint64_t);
void qemu_plugin_register_vcpu_insn_exec_inline(struct qemu_plugin_insn *, int operation, void *, uint64_t);
void qemu_plugin_register_atexit_cb(uint64_t, void (*)(uint64_t, void *), void *);

int qemu_plugin_version = 1;
enum { add_to_word = 0 };

struct function {
    const char *name;
    uint64_t instructions;
    struct function *next;
};

static struct function *functions;

static struct function *function_of(const char *name) {
    struct function *found = functions;
    while (found && strcmp(found->name, name))
        found = found->next;
    if (!found) {
        found = calloc(1, sizeof *found);
        char *copy = strdup(name);
        if (!found || !copy)
            abort();
        *found = (struct function){.name = copy, .next = functions};
        functions = found;
    }
    return found;
}

static void translated(uint64_t plugin, struct qemu_plugin_tb *block) {
    (void)plugin;
    const char *name = qemu_plugin_insn_symbol(qemu_plugin_tb_get_insn(block, 0));
    struct function *function = function_of(name ? name : "?");
    // The last by itself: for x86-64 a block may name one that is not run, as it goes over the end of a page.
    size_t others = qemu_plugin_tb_n_insns(block) - 1;
    qemu_plugin_register_vcpu_tb_exec_inline(block, add_to_word, &function->instructions, others);
    struct qemu_plugin_insn *last = qemu_plugin_tb_get_insn(block, others);
    qemu_plugin_register_vcpu_insn_exec_inline(last, add_to_word, &function->instructions, 1);
}

static void ended(uint64_t plugin, void *nothing) {
    (void)plugin, (void)nothing;
    FILE *to = fopen("counts", "w");
    for (struct function *f = functions; to && f; f = f->next)
        fprintf(to, "%" PRIu64 " %s\n", f->instructions, f->name);
    if (!to || fclose(to))
        fprintf(stderr, "the counts could not be written\n");
}

int qemu_plugin_install(uint64_t plugin, const void *about, int words, char **word);

int qemu_plugin_install(uint64_t plugin, const void *about, int words, char **word) {
    (void)about, (void)words, (void)word;
    qemu_plugin_register_vcpu_tb_trans_cb(plugin, translated);
    qemu_plugin_register_atexit_cb(plugin, ended, NULL);
    return 0;
}
