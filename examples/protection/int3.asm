; int3: INT 3, a breakpoint.

;@ module INT3
;@ stack 512
;@ start 1:0000
cpu 286
bits 16

;@ segment 1 code
section s1 vstart=0
        nop
        int3

;@ segment 2 data auto size=16
section s2 vstart=0
