; frame: a read by BP past the end of the stack segment.

;@ module FRAME
;@ stack 512
;@ start 1:0000
cpu 286
bits 16

;@ segment 1 code
section s1 vstart=0
        mov bp, sp                      ; 528, the segment's size
        mov ax, [bp]                    ; by BP, so through SS

;@ segment 2 data auto size=16
section s2 vstart=0
