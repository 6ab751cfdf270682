; reader: asks for the segment until somebody has made it, waits for the text, and writes it.

;@ module READER
;@ stack 512
;@ start 1:0000
cpu 286
bits 16

;@ segment 1 code
section s1 vstart=0
ask:    push ds                         ; the name
        push 0004h
        push ds                         ; where the selector goes
        push 0
        call 0:0FFFFh                   ;@+1 far DOSCALLS.36 DosGetShrSeg
        or ax, ax
        jnz ask                         ; nobody has made it yet
        mov es, [0]
look:   cmp byte es:[0], 1              ; is it written?
        jnz look
        push 1                          ; the standard output
        push es                         ; the text
        push 1
        push 6                          ; its length
        push ds                         ; where the count of bytes written goes
        push 2
        call 0:0FFFFh                   ;@+1 far DOSCALLS.138 DosWrite
        mov byte es:[0], 2              ; done
        push 1
        push 0
        call 0:0FFFFh                   ;@+1 far DOSCALLS.5 DosExit

; the selector, the count of bytes written and the name, whose letters may be of either case
;@ segment 2 data auto
section s2 vstart=0
        db 0, 0                         ; the selector
        db 0, 0                         ; the count
        db '\sharemem\note', 0
