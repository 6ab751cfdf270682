; levelreturn: a far return to level 0.

;@ module LEVELRETURN
;@ stack 512
;@ start 1:0000
cpu 286
bits 16

;@ segment 1 code
section s1 vstart=0
        push 0Ch                        ; selector 000F at level 0
        push 0
        retf

;@ segment 2 data auto size=16
section s2 vstart=0
