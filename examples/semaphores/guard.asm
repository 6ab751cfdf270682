; guard: adds 1 to a counter that all processes share, 100 times, in three instructions each time, between a request and a clear of a semaphore
; behind the counter, and writes it in hexadecimal.

;@ module GUARD
;@ stack 512
;@ start 1:0000
cpu 286
bits 16

;@ segment 1 code
section s1 vstart=0
        mov ax, 0FFFFh                  ;@+1 selector 3
        mov es, ax
        mov cx, 100
again:  push es                         ; the semaphore
        push 2
        push -1                         ; wait until it is clear
        push -1
        call 0:0FFFFh                   ;@+1 far DOSCALLS.140 DosSemRequest
        mov ax, es:[0]                  ; read
        inc ax                          ; add
        mov es:[0], ax                  ; write
        push es
        push 2
        call 0:0FFFFh                   ;@+1 far DOSCALLS.141 DosSemClear
        loop again
; the counter in hexadecimal
        mov bx, es:[0]
        mov si, 0
        mov cx, 4
digit:  rol bx, 4
        mov al, bl
        and al, 15
        add al, '0'
        cmp al, '9'
        jbe put
        add al, 7
put:    mov [si], al
        inc si
        loop digit
        mov byte [si], 10
        push 1
        push ds
        push 0
        push 5
        push ds
        push 6
        call 0:0FFFFh                   ;@+1 far DOSCALLS.138 DosWrite
        push 1
        push 0
        call 0:0FFFFh                   ;@+1 far DOSCALLS.5 DosExit

; the text and the count of bytes written
;@ segment 2 data auto size=16
section s2 vstart=0

; the counter, and the semaphore's four bytes; one for all processes
;@ segment 3 data shared size=6
section s3 vstart=0
