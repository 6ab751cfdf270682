; into: INTO with the overflow flag.

;@ module INTO
;@ stack 512
;@ start 1:0000
cpu 286
bits 16

;@ segment 1 code
section s1 vstart=0
        mov al, 127
        add al, 1                       ; 128 is no signed byte: overflow
        into

;@ segment 2 data auto size=16
section s2 vstart=0
