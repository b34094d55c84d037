/*
 * A plugin for QEMU that counts what a Thumb (v6-M) guest executes between two marks, which are instructions that do nothing and that no
 * compiler emits: mov r10, r10 begins a count, mov r11, r11 ends it. One line for each count, in order:
 *
 *     INSTRUCTIONS CYCLES MULTIPLIES
 *
 * CYCLES is by the table of the Cortex-M0+ (ARM DDI 0484C), written down from memory: loads and stores 2, taken branches 2, bl 3, with
 * memory that never waits and the multiplier of one cycle. With the small multiplier of 32 cycles, add 31 * MULTIPLIES.
 *
 * Debian's qemu-system-arm has plugins and ships no header for them: the few declarations used are written out here, from the API of
 * version 1.
 */
#include <inttypes.h>
#include <stdio.h>
#include <stdlib.h>
#include <string.h>

typedef uint64_t qemu_plugin_id_t;
typedef struct qemu_info_t qemu_info_t;
struct qemu_plugin_tb;
struct qemu_plugin_insn;
enum qemu_plugin_cb_flags { QEMU_PLUGIN_CB_NO_REGS };
typedef void (*tb_trans_cb)(qemu_plugin_id_t id, struct qemu_plugin_tb *tb);
typedef void (*exec_cb)(unsigned int vcpu, void *data);
typedef void (*udata_cb)(qemu_plugin_id_t id, void *data);
void qemu_plugin_register_vcpu_tb_trans_cb(qemu_plugin_id_t id, tb_trans_cb cb);
void qemu_plugin_register_vcpu_insn_exec_cb(struct qemu_plugin_insn *insn, exec_cb cb, enum qemu_plugin_cb_flags flags,
                                            void *data);
void qemu_plugin_register_atexit_cb(qemu_plugin_id_t id, udata_cb cb, void *data);
size_t qemu_plugin_tb_n_insns(const struct qemu_plugin_tb *tb);
struct qemu_plugin_insn *qemu_plugin_tb_get_insn(const struct qemu_plugin_tb *tb, size_t i);
const void *qemu_plugin_insn_data(const struct qemu_plugin_insn *insn);
uint64_t qemu_plugin_insn_vaddr(const struct qemu_plugin_insn *insn);

#define PUBLIC __attribute__((visibility("default")))
PUBLIC int qemu_plugin_version = 1;

enum { BEGIN = 0x46D2, END = 0x46DB };

typedef struct {
    uint64_t next; /* the address behind it */
    uint32_t at, cycles;
    int multiplies, conditional, mark;
} op;

static FILE *out;
static int counting;
static uint64_t instructions, cycles, multiplies, unknown;
static const op *last;

static unsigned bits_of(unsigned list)
{
    return (unsigned)__builtin_popcount(list);
}

static void price(op *o, uint16_t a, uint16_t b, size_t size)
{
    o->cycles = 1;
    if (size == 4) {
        if ((a & 0xF800) == 0xF000 && (b & 0xD000) == 0xD000)
            o->cycles = 3; /* bl */
        else if ((a & 0xFFE0) == 0xF3E0 || (a & 0xFFE0) == 0xF380 || (a & 0xFFF0) == 0xF3B0)
            o->cycles = 3; /* mrs, msr, barriers */
        else
            unknown++, fprintf(stderr, "cycles: %08x: %04x %04x\n", o->at, a, b); /* v6-M has no other */
        return;
    }
    if (a == BEGIN || a == END)
        o->mark = a;
    else if ((a & 0xFFC0) == 0x4340)
        o->multiplies = 1;
    else if ((a & 0xFF00) == 0x4700)
        o->cycles = 2; /* bx, blx */
    else if ((a & 0xFC87) == 0x4487 && (a & 0xFF00) != 0x4500)
        o->cycles = 2; /* add or mov to the pc */
    else if ((a & 0xF800) == 0x4800 || (a & 0xF000) == 0x5000 || (a & 0xE000) == 0x6000 || (a & 0xF000) == 0x8000 ||
             (a & 0xF000) == 0x9000)
        o->cycles = 2; /* one load or store */
    else if ((a & 0xFE00) == 0xB400)
        o->cycles = 1 + bits_of(a & 0x1FF); /* push */
    else if ((a & 0xFE00) == 0xBC00)
        o->cycles = (a & 0x100 ? 3 : 1) + bits_of(a & 0x1FF); /* pop; with the pc 3 + N, the pc among the N */
    else if ((a & 0xF000) == 0xC000)
        o->cycles = 1 + bits_of(a & 0xFF); /* ldm, stm */
    else if ((a & 0xF000) == 0xD000 && (a & 0x0E00) != 0x0E00)
        o->conditional = 1;
    else if ((a & 0xF800) == 0xE000)
        o->cycles = 2; /* b */
}

static void executed(unsigned int vcpu, void *data)
{
    (void)vcpu;
    const op *o = data;
    if (o->mark == BEGIN) {
        counting = 1;
        instructions = cycles = multiplies = 0;
        last = NULL;
        return;
    }
    if (!counting)
        return;
    if (last && last->conditional && o->at != last->next)
        cycles++; /* it was taken */
    if (o->mark == END) {
        counting = 0;
        fprintf(out, "%" PRIu64 " %" PRIu64 " %" PRIu64 "\n", instructions, cycles, multiplies);
        fflush(out);
        return;
    }
    instructions++;
    cycles += o->cycles;
    multiplies += (uint64_t)o->multiplies;
    last = o;
}

static void translated(qemu_plugin_id_t id, struct qemu_plugin_tb *tb)
{
    (void)id;
    for (size_t i = 0; i < qemu_plugin_tb_n_insns(tb); i++) {
        struct qemu_plugin_insn *insn = qemu_plugin_tb_get_insn(tb, i);
        const uint8_t *bytes = qemu_plugin_insn_data(insn);
        op *o = calloc(1, sizeof *o);
        uint16_t first = (uint16_t)(bytes[0] | bytes[1] << 8);
        /* not QEMU's size: before a page's end it has looked at the next instruction too, and counts that in */
        size_t size = first >= 0xE800 ? 4 : 2;
        o->at = (uint32_t)qemu_plugin_insn_vaddr(insn);
        o->next = o->at + size;
        price(o, first, size == 4 ? (uint16_t)(bytes[2] | bytes[3] << 8) : 0, size);
        qemu_plugin_register_vcpu_insn_exec_cb(insn, executed, QEMU_PLUGIN_CB_NO_REGS, o);
    }
}

static void ended(qemu_plugin_id_t id, void *data)
{
    (void)id;
    (void)data;
    if (unknown)
        fprintf(out, "unknown %" PRIu64 "\n", unknown);
    fflush(out);
}

PUBLIC int qemu_plugin_install(qemu_plugin_id_t id, const qemu_info_t *info, int argc, char **argv)
{
    (void)info;
    out = stderr;
    for (int i = 0; i < argc; i++)
        if (strncmp(argv[i], "out=", 4) == 0)
            out = fopen(argv[i] + 4, "w");
    if (!out)
        return -1;
    qemu_plugin_register_vcpu_tb_trans_cb(id, translated);
    qemu_plugin_register_atexit_cb(id, ended, NULL);
    return 0;
}
