; arguments: a service without its arguments.

;@ module ARGUMENTS
;@ stack 512
;@ start 1:0000
cpu 286
bits 16

;@ segment 1 code
section s1 vstart=0
        call 0:0FFFFh                   ;@+1 far DOSCALLS.138 DosWrite

;@ segment 2 data auto size=16
section s2 vstart=0
