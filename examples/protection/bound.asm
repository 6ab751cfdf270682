; bound: BOUND: AX below its bounds.

;@ module BOUND
;@ stack 512
;@ start 1:0000
cpu 286
bits 16

;@ segment 1 code
section s1 vstart=0
        mov ax, 1
        bound ax, [0]                   ; the bounds are 2 and 5

;@ segment 2 data auto size=16
section s2 vstart=0
        db 2, 0, 5, 0                   ; the bounds
