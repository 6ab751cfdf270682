; args: writes each string of its environment, then the module's name and the arguments, a line each.

;@ module ARGS
;@ stack 512
;@ start 1:0000
cpu 286
bits 16

;@ segment 1 code
section s1 vstart=0
        mov es, ax                      ; AX is the environment's selector
        xor si, si
; the strings of the environment, up to an empty one
next:   cmp byte es:[si], 0
        je names
        call show
        jmp short next
; BX is the command line's offset: the name, then the arguments
names:  mov si, bx
        call show
        call show
        push 1
        push 0
        call 0:0FFFFh                   ;@+1 far DOSCALLS.5 DosExit

; show: writes the text at ES:SI and a line end, and moves SI past the text's zero
show:   mov di, si
        xor cx, cx
count:  cmp byte es:[di], 0
        je out
        inc di
        inc cx
        jmp short count
out:    push di
        push 1
        push es
        push si
        push cx
        push ds
        push 2
        call 0:0FFFFh                   ;@+1 far DOSCALLS.138 DosWrite
        push 1
        push ds
        push 0
        push 1
        push ds
        push 2
        call 0:0FFFFh                   ;@+1 far DOSCALLS.138 DosWrite
        pop si
        inc si
        ret

; a line end, and the count of bytes written
;@ segment 2 data auto size=16
section s2 vstart=0
        db 10                           ; a line end
