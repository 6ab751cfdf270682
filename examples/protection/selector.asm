; selector: a selector that the process doesn't hold.

;@ module SELECTOR
;@ stack 512
;@ start 1:0000
cpu 286
bits 16

;@ segment 1 code
section s1 vstart=0
        mov ax, 27h                     ; the fourth segment, and there are three
        mov es, ax

;@ segment 2 data auto size=16
section s2 vstart=0
