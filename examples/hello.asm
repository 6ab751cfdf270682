; hello: writes `hello` and ends.

;@ module HELLO
;@ stack 512
;@ start 1:0000
cpu 286
bits 16

;@ segment 1 code
section s1 vstart=0
        push 1                          ; the standard output
        push ds                         ; the text
        push strict word 0
        push 5                          ; its length
        push ds                         ; where the count of bytes written goes
        push 0006h
        call 0:0FFFFh                   ;@+1 far DOSCALLS.138 DosWrite
        push 1                          ; end the whole process
        push 0                          ; its exit code
        call 0:0FFFFh                   ;@+1 far DOSCALLS.5 DosExit

;@ segment 2 data auto
section s2 vstart=0
        db 'hello'
        times 16-($-$$) db 0            ; the count of bytes written is at 0006
