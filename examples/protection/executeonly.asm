; executeonly: a read of execute-only code.

;@ module EXECUTEONLY
;@ stack 512
;@ start 1:0000
cpu 286
bits 16

;@ segment 1 code readonly
section s1 vstart=0
        nop
        mov al, cs:[0]

;@ segment 2 data auto size=16
section s2 vstart=0
