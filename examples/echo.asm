; echo: reads its input to the end, and writes it in upper case.

;@ module ECHO
;@ stack 512
;@ start 1:0000
cpu 286
bits 16

;@ segment 1 code
section s1 vstart=0
; the next piece of the input
next:   push 0                          ; the standard input
        push ds                         ; the buffer
        push strict word 0
        push 256                        ; its length
        push ds                         ; where the count of bytes read goes
        push 0100h
        call 0:0FFFFh                   ;@+1 far DOSCALLS.137 DosRead
        db 0Bh, 0C0h                    ; or ax, ax: AX is the error number
        jnz done
        mov cx, [0100h]
        jcxz done                       ; no bytes: the input is over
; each letter of it in upper case
        push ds
        pop es
        db 33h, 0F6h                    ; xor si, si
        db 33h, 0FFh                    ; xor di, di
        cld
letter: lodsb
        cmp al, 'a'
        jb put
        cmp al, 'z'
        ja put
        sub al, 20h
put:    stosb
        loop letter
; and out
        push 1                          ; the standard output
        push ds
        push strict word 0
        push word [0100h]
        push ds
        push 0102h
        call 0:0FFFFh                   ;@+1 far DOSCALLS.138 DosWrite
        jmp short next
; the end
done:   push 1
        push 0
        call 0:0FFFFh                   ;@+1 far DOSCALLS.5 DosExit

; the buffer of 256 bytes, the count read and the count written; none of it is in the file
;@ segment 2 data auto size=260
section s2 vstart=0
