; quotient: DIV with a quotient that doesn't fit AL: 1000h by 1.

;@ module QUOTIENT
;@ stack 512
;@ start 1:0000
cpu 286
bits 16

;@ segment 1 code
section s1 vstart=0
        mov ax, 1000h
        mov bl, 1
        div bl                          ; AX by BL: 1000h needs 13 bits

;@ segment 2 data auto size=16
section s2 vstart=0
