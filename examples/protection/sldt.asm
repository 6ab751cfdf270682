; sldt: SLDT, which tells of the system's tables: not here.

;@ module SLDT
;@ stack 512
;@ start 1:0000
cpu 286
bits 16

;@ segment 1 code
section s1 vstart=0
        sldt ax

;@ segment 2 data auto size=16
section s2 vstart=0
