; gatejump: a jump to a call gate, which only a call may take.

;@ module GATEJUMP
;@ stack 512
;@ start 1:0000
cpu 286
bits 16

;@ segment 1 code
section s1 vstart=0
        jmp 0:0FFFFh                    ;@+1 far DOSCALLS.5 DosExit

;@ segment 2 data auto size=16
section s2 vstart=0
