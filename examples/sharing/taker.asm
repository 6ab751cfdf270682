; taker: waits until it holds a segment under the first shared selector, writes the text that lies there, and lets it go.

;@ module TAKER
;@ stack 512
;@ start 1:0000
cpu 286
bits 16

;@ segment 1 code
section s1 vstart=0
        mov ax, 8007h                   ; the first selector that all share
ask:    verr ax                         ; may it be read?
        jnz ask                         ; not yet
        mov es, ax
        push 1                          ; the standard output
        push es                         ; the text
        push 0
        push 6                          ; its length
        push ds                         ; where the count of bytes written goes
        push 0
        call 0:0FFFFh                   ;@+1 far DOSCALLS.138 DosWrite
        push es
        call 0:0FFFFh                   ;@+1 far DOSCALLS.39 DosFreeSeg
        push 1
        push 0
        call 0:0FFFFh                   ;@+1 far DOSCALLS.5 DosExit

; the count of bytes written, and the stack
;@ segment 2 data auto size=16
section s2 vstart=0
