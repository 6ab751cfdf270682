; coprocessor: an instruction for the numeric processor.

;@ module COPROCESSOR
;@ stack 512
;@ start 1:0000
cpu 286
bits 16

;@ segment 1 code
section s1 vstart=0
        db 0D9h, 0EBh                   ; fldpi

;@ segment 2 data auto size=16
section s2 vstart=0
