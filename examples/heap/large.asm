; large: asks for a heap in a segment of 20,000 bytes that can't be written, and in one that can.

;@ module LARGE
;@ stack 512
;@ start 1:0000
cpu 286
bits 16

;@ segment 1 code
section s1 vstart=0
        push strict word 0FFFFh         ;@+1 selector 3
        push 1
        push 64
        call 0:0FFFFh                   ;@+1 far DOSCALLS.DosSubSet DosSubSet
        push strict word 0FFFFh         ;@+1 selector 4
        push 1
        push 64
        call 0:0FFFFh                   ;@+1 far DOSCALLS.DosSubSet DosSubSet
        push 1
        push 0
        call 0:0FFFFh                   ;@+1 far DOSCALLS.DosExit DosExit

;@ segment 2 data auto size=16
section s2 vstart=0

;@ segment 3 data readonly size=20000
section s3 vstart=0

;@ segment 4 data size=20000
section s4 vstart=0
