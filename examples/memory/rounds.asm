; rounds: counts to 3 in each of two segments of 16,384 bytes, in turns, and ends with what the second one has.

;@ module ROUNDS
;@ stack 512
;@ start 1:0000
cpu 286
bits 16

;@ segment 1 code
section s1 vstart=0
        mov cx, 3
again:  xor ax, ax
        mov es, ax                      ; neither is needed now
        mov ax, 0FFFFh                  ;@+1 selector 3
        mov es, ax
        inc byte es:[0]
        xor ax, ax
        mov es, ax
        mov ax, 0FFFFh                  ;@+1 selector 4
        mov es, ax
        inc byte es:[0]
        loop again
        mov al, es:[0]
        xor ah, ah
        push 1
        push ax
        call 0:0FFFFh                   ;@+1 far DOSCALLS.5 DosExit

;@ segment 2 data auto size=16
section s2 vstart=0

;@ segment 3 data size=16384
section s3 vstart=0

;@ segment 4 data size=16384
section s4 vstart=0
