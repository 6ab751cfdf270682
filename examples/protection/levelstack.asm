; levelstack: a selector of level 0 in SS.

;@ module LEVELSTACK
;@ stack 512
;@ start 1:0000
cpu 286
bits 16

;@ segment 1 code
section s1 vstart=0
        mov ax, ss
        and al, 0FCh                    ; the same segment, at level 0
        mov ss, ax

;@ segment 2 data auto size=16
section s2 vstart=0
