; codedata: a write into the code, loaded into DS.

;@ module CODEDATA
;@ stack 512
;@ start 1:0000
cpu 286
bits 16

;@ segment 1 code
section s1 vstart=0
        push cs
        pop ds                          ; readable code may be loaded
        mov byte [0], 90h               ; and not be written

;@ segment 2 data auto size=16
section s2 vstart=0
