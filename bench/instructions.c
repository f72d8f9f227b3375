/* A plugin of QEMU's that counts the instructions of a program and says how many at its end (bench/instructions). QEMU's header is in no Debian package, so
   what is used of it stands here; tried with QEMU 7.2. */
#include <stddef.h>
#include <stdint.h>
#include <stdio.h>

struct block;
typedef uint64_t plugin;

void qemu_plugin_register_vcpu_tb_trans_cb(plugin, void (*)(plugin, struct block *));
void qemu_plugin_register_vcpu_tb_exec_inline(struct block *, int, void *, uint64_t);
void qemu_plugin_register_atexit_cb(plugin, void (*)(plugin, void *), void *);
size_t qemu_plugin_tb_n_insns(const struct block *);
void qemu_plugin_outs(const char *);

int qemu_plugin_version = 1;

enum { ADD };
static uint64_t count;

/* Each time that a block is run its instructions are added. */
static void translated(plugin id, struct block *block)
{
    (void)id;
    qemu_plugin_register_vcpu_tb_exec_inline(block, ADD, &count, qemu_plugin_tb_n_insns(block));
}

static void ended(plugin id, void *nothing)
{
    char line[32];
    (void)id, (void)nothing;
    snprintf(line, sizeof line, "%llu\n", (unsigned long long)count);
    qemu_plugin_outs(line);
}

int qemu_plugin_install(plugin id, const void *info, int count, char **words)
{
    (void)info, (void)count, (void)words;
    qemu_plugin_register_vcpu_tb_trans_cb(id, translated);
    qemu_plugin_register_atexit_cb(id, ended, NULL);
    return 0;
}
