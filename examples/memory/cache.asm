; cache: keeps a table of squares in a segment that the system may discard. It lets the table go, and asks for it again; if it is discarded by
; then it makes it anew. It says each time that it makes it, and at the end what the square of 12 is.

;@ module CACHE
;@ stack 512
;@ start 1:0000
cpu 286
bits 16

;@ segment 1 code
section s1 vstart=0
        push 64                         ; the table's bytes
        push ds
        push 0                          ; where its selector goes
        push 4                          ; discardable: it begins locked
        call 0:0FFFFh                   ;@+1 far DOSCALLS.34 DosAllocSeg
        call make
        push 0                          ; what stands in a segment register isn't discarded
        pop es
        push word [0]
        call 0:0FFFFh                   ;@+1 far DOSCALLS.123 DosUnlockSeg
; other work, in which the table may go
        nop
; and the table again
        push word [0]
        call 0:0FFFFh                   ;@+1 far DOSCALLS.122 DosLockSeg
        cmp ax, 157                     ; discarded
        jne there
        push 64
        push word [0]
        call 0:0FFFFh                   ;@+1 far DOSCALLS.38 DosReallocSeg
        call make
there:  mov es, [0]
        mov ax, es:[12*2]
        mov bl, 100                     ; three digits
        div bl
        add al, '0'
        mov [4], al
        mov al, ah
        aam
        add ax, 3030h
        mov [5], ah
        mov [6], al
        mov byte [7], 10
        mov si, 4
        mov cx, 4
        call put
        push 1
        push 0
        call 0:0FFFFh                   ;@+1 far DOSCALLS.5 DosExit
; the squares of 0 to 31, in words
make:   mov es, [0]
        xor di, di
        xor cx, cx
next:   mov ax, cx
        mul ax
        stosw
        inc cx
        cmp cx, 32
        jb next
        mov si, text
        mov cx, 5
; the bytes at DS:SI, as many as CX says
put:    push 1
        push ds
        push si
        push cx
        push ds
        push 2                          ; where the count of bytes written goes
        call 0:0FFFFh                   ;@+1 far DOSCALLS.138 DosWrite
        ret

; the selector, the count and the digits, and the text
;@ segment 2 data auto
section s2 vstart=0
        dw 0
        dw 0
        db 0, 0, 0, 0
text:   db 'make', 10
