; giver: makes a segment that can be given, puts a text into it, gives it to process 2 and ends.

;@ module GIVER
;@ stack 512
;@ start 1:0000
cpu 286
bits 16

;@ segment 1 code
section s1 vstart=0
        push 16                         ; the size
        push ds                         ; where the selector goes
        push 0
        push 1                          ; it can be given
        call 0:0FFFFh                   ;@+1 far DOSCALLS.34 DosAllocSeg
        mov es, [0]
        mov si, 0004h                   ; the text
        mov di, 0
        mov cx, 6
        rep movsb
        push word [0]                   ; the selector
        push 2                          ; to process 2
        push ds                         ; where its selector there goes
        push 2
        call 0:0FFFFh                   ;@+1 far DOSCALLS.37 DosGiveSeg
        push 1
        push 0
        call 0:0FFFFh                   ;@+1 far DOSCALLS.5 DosExit

; the selector, the selector of the other process and the text
;@ segment 2 data auto
section s2 vstart=0
        db 0, 0                         ; the selector
        db 0, 0                         ; that of process 2
        db 'hello', 10
