; lastbyte: a word of which one byte lies in the segment.

;@ module LASTBYTE
;@ stack 512
;@ start 1:0000
cpu 286
bits 16

;@ segment 1 code
section s1 vstart=0
        mov al, [20Fh]                  ; the last byte: it may be read
        mov ax, [20Fh]                  ; its second byte lies outside

;@ segment 2 data auto size=16
section s2 vstart=0
