; nested: IRET with the nested-task flag.

;@ module NESTED
;@ stack 512
;@ start 1:0000
cpu 286
bits 16

;@ segment 1 code
section s1 vstart=0
        push 4202h                      ; the flags with bit 14
        popf
        iret

;@ segment 2 data auto size=16
section s2 vstart=0
