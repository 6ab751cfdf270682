/* One step by libx86emu, from registers that the input has; for the two programs beside it. */
#include <stdio.h>
#include <stdlib.h>
#include <x86emu.h>

/* The order in which the segment registers stand in the input. */
static const int order[4] = { R_CS_INDEX, R_SS_INDEX, R_DS_INDEX, R_ES_INDEX };

/* The next number of the input, which has to have one. */
static unsigned next(void)
{
    unsigned value;
    if (scanf("%u", &value) != 1)
        exit(1);
    return value;
}

/* Takes the registers from the input, behind ax: bx cx dx cs ss ds es sp bp si di ip flags, and the bases of cs ss ds es, all decimal. */
static void take_registers(x86emu_t *emu, unsigned ax)
{
    x86emu_regs_t *r = &emu->x86;
    unsigned k;
    r->R_EAX = ax;
    r->R_EBX = next();
    r->R_ECX = next();
    r->R_EDX = next();
    for (k = 0; k < 4; k++)
        r->seg[order[k]].sel = next();
    r->R_ESP = next();
    r->R_EBP = next();
    r->R_ESI = next();
    r->R_EDI = next();
    r->R_EIP = next();
    r->R_EFLG = next();
    for (k = 0; k < 4; k++) {
        r->seg[order[k]].base = next();
        r->seg[order[k]].limit = 0xffff;
    }
}

static void take_step(x86emu_t *emu)
{
    emu->max_instr = 1;
    x86emu_run(emu, X86EMU_RUN_MAX_INSTR);
}
