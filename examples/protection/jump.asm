; jump: a jump past the end of the code.

;@ module JUMP
;@ stack 512
;@ start 1:0000
cpu 286
bits 16

;@ segment 1 code
section s1 vstart=0
        db 0EBh, 10h                    ; jmp 0012h, and the code has 2 bytes

;@ segment 2 data auto size=16
section s2 vstart=0
