; moves: allocates three segments of 8,192 bytes, one after the other, and writes a letter into each; frees the first, and allocates one of
; 12,288 bytes and one more of 8,192.

;@ module MOVES
;@ stack 512
;@ start 1:0000
cpu 286
bits 16

; SI is where the selector goes: 0, 2 and 4
;@ segment 1 code
section s1 vstart=0
        mov si, 0
L0003:  push 8192
        push ds
        push si
        push 0
        call 0:0FFFFh                   ;@+1 far DOSCALLS.DosAllocSeg DosAllocSeg
        mov es, [si]
        db 8Bh, 0C6h                    ; mov ax, si
        add al, 'a'
        mov es:[0], al                  ; a, c and e
        inc si
        inc si
        cmp si, 6
        jnz L0003
        db 33h, 0C0h                    ; xor ax, ax
        mov es, ax
        push word [0]
        call 0:0FFFFh                   ;@+1 far DOSCALLS.DosFreeSeg DosFreeSeg
        push 12288
        push ds
        push 0
        push 0
        call 0:0FFFFh                   ;@+1 far DOSCALLS.DosAllocSeg DosAllocSeg
        mov es, [0]
        mov byte es:[0], 'y'
        push 8192
        push ds
        push 6
        push 0
        call 0:0FFFFh                   ;@+1 far DOSCALLS.DosAllocSeg DosAllocSeg
        mov es, [6]
        mov byte es:[0], 'z'
        push 1
        push 0
        call 0:0FFFFh                   ;@+1 far DOSCALLS.DosExit DosExit

;@ segment 2 data auto size=16
section s2 vstart=0
