; range: a range of bytes that leaves its segment, given to a service.

;@ module RANGE
;@ stack 512
;@ start 1:0000
cpu 286
bits 16

;@ segment 1 code
section s1 vstart=0
        push 1                          ; the standard output
        push ds
        push 20Ch                       ; four bytes before the end
        push 5                          ; five bytes
        push ds
        push 6
        call 0:0FFFFh                   ;@+1 far DOSCALLS.138 DosWrite

;@ segment 2 data auto size=16
section s2 vstart=0
