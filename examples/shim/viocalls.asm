; viocalls: the one call by which most programs of a screen write text, made of DosWrite.

;@ module VIOCALLS library
;@ export VIOWRTTTY 1:0000 ordinal=19
cpu 286
bits 16

; VioWrtTTY(text, length, screen): the text goes to the standard output, on whatever screen
;@ segment 1 code
section s1 vstart=0
        push bp
        mov bp, sp
        push ax                         ; where the count of bytes written goes
        push 1                          ; the standard output
        push word [bp+12]               ; the text
        push word [bp+10]
        push word [bp+8]                ; its length
        push ss
        lea ax, [bp-2]
        push ax
        call 0:0FFFFh                   ;@+1 far DOSCALLS.DosWrite DosWrite
        mov sp, bp
        pop bp
        retf 8
