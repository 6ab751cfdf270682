; runoff: code that runs past its end.

;@ module RUNOFF
;@ stack 512
;@ start 1:0000
cpu 286
bits 16

;@ segment 1 code
section s1 vstart=0
        nop

;@ segment 2 data auto size=16
section s2 vstart=0
