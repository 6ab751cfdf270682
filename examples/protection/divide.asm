; divide: DIV by 0.

;@ module DIVIDE
;@ stack 512
;@ start 1:0000
cpu 286
bits 16

;@ segment 1 code
section s1 vstart=0
        xor bx, bx
        div bx                          ; DX:AX by BX, which is 0

;@ segment 2 data auto size=16
section s2 vstart=0
