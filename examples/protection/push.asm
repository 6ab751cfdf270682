; push: PUSHA below the start of the stack segment.

;@ module PUSH
;@ stack 512
;@ start 1:0000
cpu 286
bits 16

;@ segment 1 code
section s1 vstart=0
        mov sp, 2
        pusha                           ; eight words, of which one has room

;@ segment 2 data auto size=16
section s2 vstart=0
