// A plugin for qemu-user 7.2: counts the instructions of the emulated program, and tells the count when asked.
// The program asks by a call of the system that does not exist, naming a file of its own: the count is written there, eight bytes.
// With the words each=FILE,start=HEX (where the program's code starts by its own file) how often each instruction of the program itself ran is
// written to the file at the end, a line each: its address by the program's file, and the count.
// Debian's qemu-user loads plugins but brings no qemu-plugin.h, so what is used of it is declared here.

#include <inttypes.h>
#include <stdio.h>
#include <stdlib.h>
#include <string.h>
#include <unistd.h>

struct qemu_plugin_tb;
struct qemu_plugin_insn;
typedef void translated(uint64_t plugin, struct qemu_plugin_tb *block);
typedef void called(uint64_t plugin, unsigned processor, int64_t number, uint64_t a1, uint64_t a2, uint64_t a3, uint64_t a4, uint64_t a5, uint64_t a6, uint64_t a7, uint64_t a8);
typedef void ended(uint64_t plugin, void *data);
void qemu_plugin_register_vcpu_tb_trans_cb(uint64_t plugin, translated *callback);
void qemu_plugin_register_vcpu_syscall_cb(uint64_t plugin, called *callback);
void qemu_plugin_register_atexit_cb(uint64_t plugin, ended *callback, void *data);
size_t qemu_plugin_tb_n_insns(const struct qemu_plugin_tb *block);
struct qemu_plugin_insn *qemu_plugin_tb_get_insn(const struct qemu_plugin_tb *block, size_t number);
uint64_t qemu_plugin_insn_vaddr(const struct qemu_plugin_insn *instruction);
uint64_t qemu_plugin_start_code(void);
uint64_t qemu_plugin_end_code(void);
enum operation { ADD };
void qemu_plugin_register_vcpu_tb_exec_inline(struct qemu_plugin_tb *block, enum operation operation, void *counter, uint64_t amount);
void qemu_plugin_register_vcpu_insn_exec_inline(struct qemu_plugin_insn *instruction, enum operation operation, void *counter, uint64_t amount);

// The version of the interface above: another version of qemu refuses to load it.
int qemu_plugin_version = 1;

// As in src/counter.rs.
enum { ASK = 0x616b7479 };

static uint64_t count;

// The counts of the program's own instructions, by their distance from the start of its code.
static FILE *each_file;
static uint64_t *each_count, code_start, code_length, start_in_file;

static void count_each(struct qemu_plugin_tb *block, size_t instructions) {
    if (!each_count) {
        code_start = qemu_plugin_start_code();
        code_length = qemu_plugin_end_code() - code_start;
        each_count = calloc(code_length, sizeof *each_count);
        if (!each_count) abort();
    }
    for (size_t i = 0; i < instructions; i++) {
        struct qemu_plugin_insn *instruction = qemu_plugin_tb_get_insn(block, i);
        uint64_t at = qemu_plugin_insn_vaddr(instruction) - code_start;
        if (at < code_length) qemu_plugin_register_vcpu_insn_exec_inline(instruction, ADD, &each_count[at], 1);
    }
}

static void block_translated(uint64_t plugin, struct qemu_plugin_tb *block) {
    (void)plugin;
    size_t instructions = qemu_plugin_tb_n_insns(block);
    qemu_plugin_register_vcpu_tb_exec_inline(block, ADD, &count, instructions);
    if (each_file) count_each(block, instructions);
}

static void system_called(uint64_t plugin, unsigned processor, int64_t number, uint64_t file, uint64_t a2, uint64_t a3, uint64_t a4, uint64_t a5, uint64_t a6, uint64_t a7, uint64_t a8) {
    (void)plugin, (void)processor, (void)a2, (void)a3, (void)a4, (void)a5, (void)a6, (void)a7, (void)a8;
    if (number != ASK) return;
    uint64_t told = count;
    // A count that does not arrive is missed by the program.
    ssize_t written = write((int)file, &told, sizeof told);
    (void)written;
}

static void write_each(uint64_t plugin, void *data) {
    (void)plugin, (void)data;
    for (uint64_t at = 0; at < code_length; at++)
        if (each_count[at]) fprintf(each_file, "%" PRIx64 " %" PRIu64 "\n", start_in_file + at, each_count[at]);
    fclose(each_file);
}

int qemu_plugin_install(uint64_t plugin, const void *about, int words, char **word) {
    (void)about;
    for (int i = 0; i < words; i++) {
        if (!strncmp(word[i], "each=", 5)) each_file = fopen(word[i] + 5, "w");
        if (!strncmp(word[i], "start=", 6)) start_in_file = strtoull(word[i] + 6, NULL, 16);
    }
    qemu_plugin_register_vcpu_tb_trans_cb(plugin, block_translated);
    qemu_plugin_register_vcpu_syscall_cb(plugin, system_called);
    if (each_file) qemu_plugin_register_atexit_cb(plugin, write_each, NULL);
    return 0;
}
