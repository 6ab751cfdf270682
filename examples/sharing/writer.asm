; writer: makes a shared segment with a name, puts a text into it, and waits until the reader has done.

;@ module WRITER
;@ stack 512
;@ start 1:0000
cpu 286
bits 16

;@ segment 1 code
section s1 vstart=0
        push 16                         ; the size
        push ds                         ; the name
        push 0002h
        push ds                         ; where the selector goes
        push 0
        call 0:0FFFFh                   ;@+1 far DOSCALLS.35 DosAllocShrSeg
        mov es, [0]
        mov si, 0011h                   ; the text
        mov di, 1
        mov cx, 6
        rep movsb
        mov byte es:[0], 1              ; it is written
again:  cmp byte es:[0], 2              ; has the reader done?
        jnz again
        push 1
        push 0
        call 0:0FFFFh                   ;@+1 far DOSCALLS.5 DosExit

; the selector, the name and the text
;@ segment 2 data auto
section s2 vstart=0
        db 0, 0                         ; the selector
        db '\SHAREMEM\NOTE', 0
        db 'hello', 10
