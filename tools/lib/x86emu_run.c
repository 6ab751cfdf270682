/* Takes the steps of whole programs by libx86emu, for tools/check_dumps: it keeps the memory from one step to the next. Lines of the input:
   w ADDRESS HEX    puts bytes;
   r ADDRESS COUNT  a line of so many bytes is written, in hexadecimal digits;
   s NUMBERS        a step from ax bx cx dx cs ss ds es sp bp si di ip flags and the bases of cs ss ds es, all decimal. */
#include "x86emu_step.h"

static void put(x86emu_t *emu)
{
    unsigned at = next(), byte;
    for (getchar(); scanf("%2x", &byte) == 1; at++) {
        x86emu_write_byte(emu, at, byte);
        int behind = getchar();
        if (behind == '\n')
            return;
        ungetc(behind, stdin);
    }
    exit(1);
}

static void show(x86emu_t *emu)
{
    unsigned at = next(), count = next();
    while (count--)
        printf("%02x", x86emu_read_byte(emu, at++));
    printf("\n");
    fflush(stdout);
}

static void step(x86emu_t *emu)
{
    x86emu_reset(emu);
    take_registers(emu, next());
    take_step(emu);
}

int main(void)
{
    x86emu_t *emu = x86emu_new(X86EMU_PERM_RWX | X86EMU_PERM_VALID, 0);
    char what;
    while (scanf(" %c", &what) == 1) {
        if (what == 'w')
            put(emu);
        else if (what == 'r')
            show(emu);
        else
            step(emu);
    }
    x86emu_done(emu);
    return 0;
}
