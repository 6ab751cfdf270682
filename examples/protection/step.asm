; step: the trap flag: the instruction after POPF is done, and then exception 1 follows.

;@ module STEP
;@ stack 512
;@ start 1:0000
cpu 286
bits 16

;@ segment 1 code
section s1 vstart=0
        push 302h                       ; the flags with bit 8, the trap flag
        popf                            ; it was clear before, so nothing follows
        nop                             ; it was set before this one

;@ segment 2 data auto size=16
section s2 vstart=0
