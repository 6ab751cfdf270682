; exact: loads a segment of 32,768 bytes beside its code and its data, which needs all three in memory together.

;@ module EXACT
;@ stack 512
;@ start 1:0000
cpu 286
bits 16

;@ segment 1 code size=32768
section s1 vstart=0
        mov ax, 0FFFFh                  ;@+1 selector 3
        mov es, ax                      ; 32,768 + 16,384 + 32,768 bytes
        push 1
        push 0
        call 0:0FFFFh                   ;@+1 far DOSCALLS.5 DosExit

; 16,384 bytes with the stack
;@ segment 2 data auto size=15872
section s2 vstart=0

;@ segment 3 data size=32768
section s3 vstart=0
