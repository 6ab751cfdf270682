; wait: WAIT does nothing; an undefined instruction after it ends the process.

;@ module WAIT
;@ stack 512
;@ start 1:0000
cpu 286
bits 16

;@ segment 1 code
section s1 vstart=0
        wait
        db 15, 11                       ; no instruction

;@ segment 2 data auto size=16
section s2 vstart=0
