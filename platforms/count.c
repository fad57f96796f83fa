/* A plugin of qemu-user that counts instructions in a function: it begins at address `from`, and at address `to`, its last instruction, prints how many were done since. The few declarations are those of qemu's
   plugin interface, version 1. arguments: from=ADDRESS,to=ADDRESS,counts=NAME */
#include <stdint.h>
#include <stdio.h>
#include <stdlib.h>
#include <string.h>

struct qemu_plugin_tb;
struct qemu_plugin_insn;
void qemu_plugin_register_vcpu_tb_trans_cb(uint64_t id, void (*translated)(uint64_t id, struct qemu_plugin_tb *block));
void qemu_plugin_register_vcpu_tb_exec_cb(struct qemu_plugin_tb *block, void (*done)(unsigned processor, void *data), int flags, void *data);
void qemu_plugin_register_vcpu_insn_exec_cb(struct qemu_plugin_insn *instruction, void (*done)(unsigned processor, void *data), int flags, void *data);
size_t qemu_plugin_tb_n_insns(const struct qemu_plugin_tb *block);
struct qemu_plugin_insn *qemu_plugin_tb_get_insn(const struct qemu_plugin_tb *block, size_t place);
uint64_t qemu_plugin_insn_vaddr(const struct qemu_plugin_insn *instruction);

int qemu_plugin_version = 1;

static uint64_t from, to, count;
static FILE *file;

static void add(unsigned processor, void *instructions)
{
    (void)processor;
    count += (uintptr_t)instructions;
}

static void begin(unsigned processor, void *data)
{
    (void)processor, (void)data;
    count = 0;
}

static void end(unsigned processor, void *data)
{
    (void)processor, (void)data;
    fprintf(file, "%llu\n", (unsigned long long)count);
    fflush(file);
}

static void translated(uint64_t id, struct qemu_plugin_tb *block)
{
    (void)id;
    size_t instructions = qemu_plugin_tb_n_insns(block);
    qemu_plugin_register_vcpu_tb_exec_cb(block, add, 0, (void *)(uintptr_t)instructions);
    for (size_t i = 0; i < instructions; i++) {
        struct qemu_plugin_insn *instruction = qemu_plugin_tb_get_insn(block, i);
        uint64_t address = qemu_plugin_insn_vaddr(instruction);
        if (address == from)
            qemu_plugin_register_vcpu_insn_exec_cb(instruction, begin, 0, NULL);
        if (address == to)
            qemu_plugin_register_vcpu_insn_exec_cb(instruction, end, 0, NULL);
    }
}

int qemu_plugin_install(uint64_t id, const void *info, int argc, char **argv)
{
    (void)info;
    for (int i = 0; i < argc; i++) {
        char *value = strchr(argv[i], '=');
        if (value == NULL)
            return 1;
        if (strncmp(argv[i], "from=", 5) == 0)
            from = strtoull(value + 1, NULL, 16);
        else if (strncmp(argv[i], "to=", 3) == 0)
            to = strtoull(value + 1, NULL, 16);
        else if (strncmp(argv[i], "counts=", 7) == 0)
            file = fopen(value + 1, "w");
    }
    if (from == 0 || to == 0 || file == NULL)
        return 1;
    qemu_plugin_register_vcpu_tb_trans_cb(id, translated);
    return 0;
}
