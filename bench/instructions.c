// A plugin of the emulator that counts the instructions a program runs outside the system, for bench/board.py. As the program ends,
// the count is added as a line to the file that INSTRUCTIONS names. Debian packs no header of the plugins' functions, so those that
// are called stand here.
#include <inttypes.h>
#include <stdint.h>
#include <stdio.h>
#include <stdlib.h>

enum { INLINE_ADD_U64 };

struct block;

extern void qemu_plugin_register_vcpu_tb_trans_cb(uint64_t id, void (*call)(uint64_t id, struct block *block));
extern void qemu_plugin_register_vcpu_tb_exec_inline(struct block *block, int operation, void *number, uint64_t added);
extern size_t qemu_plugin_tb_n_insns(const struct block *block);
extern void qemu_plugin_register_atexit_cb(uint64_t id, void (*call)(uint64_t id, void *data), void *data);

int qemu_plugin_version = 1;
static uint64_t count;

static void count_block(uint64_t id, struct block *block)
{
    (void)id;
    qemu_plugin_register_vcpu_tb_exec_inline(block, INLINE_ADD_U64, &count, qemu_plugin_tb_n_insns(block));
}

static void write_count(uint64_t id, void *data)
{
    (void)id, (void)data;
    FILE *file = fopen(getenv("INSTRUCTIONS"), "a");
    if (!file || fprintf(file, "%" PRIu64 "\n", count) < 0 || fclose(file))
        abort();
}

int qemu_plugin_install(uint64_t id, const void *emulator, int words, char **given)
{
    (void)emulator, (void)words, (void)given;
    qemu_plugin_register_vcpu_tb_trans_cb(id, count_block);
    qemu_plugin_register_atexit_cb(id, write_count, NULL);
    return 0;
}
