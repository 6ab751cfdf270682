; int4: INT 4.

;@ module INT4
;@ stack 512
;@ start 1:0000
cpu 286
bits 16

;@ segment 1 code
section s1 vstart=0
        int 4

;@ segment 2 data auto size=16
section s2 vstart=0
