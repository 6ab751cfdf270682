; datacall: a far call to a segment of data.

;@ module DATACALL
;@ stack 512
;@ start 1:0000
cpu 286
bits 16

;@ segment 1 code
section s1 vstart=0
        call 17h:0                      ; 0017

;@ segment 2 data auto size=16
section s2 vstart=0
