; mine: adds the process's number three times to a word of its own data, and writes the number, a colon and the sum.

;@ module MINE
;@ stack 512
;@ start 1:0000
cpu 286
bits 16

;@ segment 1 code
section s1 vstart=0
        push ds                         ; where the three words of DosGetPID go
        push 0
        call 0:0FFFFh                   ;@+1 far DOSCALLS.94 DosGetPID
        mov cx, 3
again:  mov ax, [0]                     ; the process's number
        add [6], ax                     ; the sum
        loop again
; both as digits, and out
        mov al, [0]
        add al, '0'
        mov [8], al
        mov al, [6]
        add al, '0'
        mov [10], al
        push 1
        push ds
        push 8
        push 4
        push ds
        push 12
        call 0:0FFFFh                   ;@+1 far DOSCALLS.138 DosWrite
        push 1
        push word [0]                   ; the process's number is its exit code
        call 0:0FFFFh                   ;@+1 far DOSCALLS.5 DosExit

; three words of DosGetPID, the sum, the text and the count of bytes written
;@ segment 2 data auto size=16
section s2 vstart=0
        times 6 db 0                    ; of DosGetPID
        db 0, 0                         ; the sum
        db '?:?', 10                    ; the text
