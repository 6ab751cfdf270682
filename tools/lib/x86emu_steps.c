/* Takes single steps by libx86emu, for tools/check_programs. Each line of the input has decimal numbers: ax bx cx dx cs ss ds es sp bp si di
   ip flags, the bases of cs ss ds es, how many bytes of memory follow, and each one's address and value. A line of the output has the
   fourteen registers behind the step, and the values of these bytes. */
#include "x86emu_step.h"

int main(void)
{
    static unsigned address[262144];
    unsigned first;
    while (scanf("%u", &first) == 1) {
        x86emu_t *emu = x86emu_new(X86EMU_PERM_RWX | X86EMU_PERM_VALID, 0);
        x86emu_regs_t *r = &emu->x86;
        unsigned k, count;
        take_registers(emu, first);
        count = next();
        if (count > 262144)
            return 1;
        for (k = 0; k < count; k++) {
            address[k] = next();
            x86emu_write_byte(emu, address[k], next());
        }
        take_step(emu);
        printf("%u %u %u %u", r->R_AX, r->R_BX, r->R_CX, r->R_DX);
        for (k = 0; k < 4; k++)
            printf(" %u", r->seg[order[k]].sel);
        printf(" %u %u %u %u %u %u", r->R_SP, r->R_BP, r->R_SI, r->R_DI, r->R_IP, (unsigned)(r->R_FLG & 0xffff));
        for (k = 0; k < count; k++)
            printf(" %u", x86emu_read_byte(emu, address[k]));
        printf("\n");
        fflush(stdout);
        x86emu_done(emu);
    }
    return 0;
}
