; pop: POP at the end of the stack segment.

;@ module POP
;@ stack 512
;@ start 1:0000
cpu 286
bits 16

;@ segment 1 code
section s1 vstart=0
        pop ax                          ; the stack is empty: SP is the segment's size

;@ segment 2 data auto size=16
section s2 vstart=0
