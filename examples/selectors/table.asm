; table: writes what LAR and LSL tell of each selector of the local table up to 0037: the selector, the access byte times 256 and
; the limit, or blanks where the process holds none.

;@ module TABLE
;@ stack 512
;@ start 1:0000
cpu 286
bits 16

;@ segment 1 code
section s1 vstart=0
        mov bx, 7                       ; index 0 of the local table
; next: a line of its own, first of blanks
next:   mov di, 5
        mov cx, 9
        mov al, ' '
        push ds
        pop es
        cld
        rep stosb
        mov di, 0
        mov ax, bx
        call hex
        lar ax, bx                      ; ZF is 0 where there is none
        jnz write
        mov di, 5
        call hex
        lsl ax, bx
        mov di, 10
        call hex
write:  push 1                          ; the standard output
        push ds                         ; the line
        push 0
        push 15                         ; its length
        push ds
        push 16
        call 0:0FFFFh                   ;@+1 far DOSCALLS.138 DosWrite
        add bx, 8
        cmp bx, 37h
        jbe next
        push 1
        push 0
        call 0:0FFFFh                   ;@+1 far DOSCALLS.5 DosExit

; hex: AX in four digits at DI
hex:    mov cx, 4
digit:  rol ax, 4
        mov dx, ax
        and dl, 15
        add dl, '0'
        cmp dl, '9'
        jbe put
        add dl, 7
put:    mov [di], dl
        inc di
        loop digit
        ret

; the line, with its end, and the count of bytes written
;@ segment 2 data auto size=18
section s2 vstart=0
        db 'SSSS RRRR LLLL', 10         ; the line

; two more segments to see
;@ segment 3 data readonly
section s3 vstart=0
        db 1, 2, 3                      ; three bytes
;@ segment 4 code readonly
section s4 vstart=0
        nop
;@ segment 5 data size=4096
section s5 vstart=0
