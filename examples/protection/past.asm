; past: a write past the end of the data segment.

;@ module PAST
;@ stack 512
;@ start 1:0000
cpu 286
bits 16

;@ segment 1 code
section s1 vstart=0
        mov word [9000h], 1             ; the segment has 528 bytes

;@ segment 2 data auto size=16
section s2 vstart=0
