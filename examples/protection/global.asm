; global: a selector of the global table.

;@ module GLOBAL
;@ stack 512
;@ start 1:0000
cpu 286
bits 16

;@ segment 1 code
section s1 vstart=0
        mov ax, 0Bh                     ; index 1, table bit 0
        mov ds, ax

;@ segment 2 data auto size=16
section s2 vstart=0
