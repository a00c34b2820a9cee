/* A plugin of the emulator qemu: counts the instructions that an emulated program executes, its libraries' included and the
   kernel's not, and says their number on standard error at the program's end. Where it is told a stretch of the program's memory
   (from=ADDRESS,to=ADDRESS, the second beyond it), it also counts the loads from there and the bytes that they bring; the emulator
   takes a load of sixteen bytes for two of eight. Debian's qemu-user comes without the header, so what is used of it is declared here, as
   qemu 7.2 has it. */
#include <stdint.h>
#include <stdio.h>
#include <stdlib.h>
#include <string.h>

typedef uint64_t plugin;
struct qemu_plugin_tb;
struct qemu_plugin_insn;

#define NO_REGISTERS 0
#define READS_AND_WRITES 3 /* told apart below: asked for reads alone, qemu 7.2 was seen to tell of writes */

void qemu_plugin_register_vcpu_tb_trans_cb(plugin id, void (*translated)(plugin id, struct qemu_plugin_tb *block));
void qemu_plugin_register_vcpu_tb_exec_cb(struct qemu_plugin_tb *block, void (*executed)(unsigned processor, void *data),
                                          int flags, void *data);
void qemu_plugin_register_vcpu_mem_cb(struct qemu_plugin_insn *instruction,
                                      void (*accessed)(unsigned processor, uint32_t access, uint64_t address, void *data), int flags,
                                      int which, void *data);
void qemu_plugin_register_atexit_cb(plugin id, void (*ended)(plugin id, void *data), void *data);
size_t qemu_plugin_tb_n_insns(const struct qemu_plugin_tb *block);
struct qemu_plugin_insn *qemu_plugin_tb_get_insn(const struct qemu_plugin_tb *block, size_t place);
unsigned qemu_plugin_mem_size_shift(uint32_t access);
_Bool qemu_plugin_mem_is_store(uint32_t access);

int qemu_plugin_version = 1;

static uint64_t instructions, loads, bytes, from, to;

static void executed(unsigned processor, void *data) {
    (void)processor;
    instructions += (uintptr_t)data;
}

static void loaded(unsigned processor, uint32_t access, uint64_t address, void *data) {
    (void)processor;
    (void)data;
    if (from <= address && address < to && !qemu_plugin_mem_is_store(access)) {
        loads++;
        bytes += 1u << qemu_plugin_mem_size_shift(access);
    }
}

static void translated(plugin id, struct qemu_plugin_tb *block) {
    size_t length = qemu_plugin_tb_n_insns(block);
    (void)id;
    qemu_plugin_register_vcpu_tb_exec_cb(block, executed, NO_REGISTERS, (void *)(uintptr_t)length);
    for (size_t i = 0; i < length && from < to; i++)
        qemu_plugin_register_vcpu_mem_cb(qemu_plugin_tb_get_insn(block, i), loaded, NO_REGISTERS, READS_AND_WRITES, NULL);
}

static void ended(plugin id, void *data) {
    (void)id;
    (void)data;
    fprintf(stderr, "instructions\t%llu\n", (unsigned long long)instructions);
    if (from < to)
        fprintf(stderr, "loads\t%llu\nbytes\t%llu\n", (unsigned long long)loads, (unsigned long long)bytes);
}

int qemu_plugin_install(plugin id, const void *emulator, int arguments, char **values) {
    (void)emulator;
    for (int i = 0; i < arguments; i++)
        if (strncmp(values[i], "from=", 5) == 0)
            from = strtoull(values[i] + 5, NULL, 0);
        else if (strncmp(values[i], "to=", 3) == 0)
            to = strtoull(values[i] + 3, NULL, 0);
    qemu_plugin_register_vcpu_tb_trans_cb(id, translated);
    qemu_plugin_register_atexit_cb(id, ended, NULL);
    return 0;
}
