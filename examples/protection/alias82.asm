; alias82: the opcode 82, which isn't defined here.

;@ module ALIAS82
;@ stack 512
;@ start 1:0000
cpu 286
bits 16

;@ segment 1 code
section s1 vstart=0
        db 82h, 0C0h, 1                 ; add al, 1 on some processors

;@ segment 2 data auto size=16
section s2 vstart=0
