; patches: one place for each kind of relocation, and writes what the loader made of them, a line of bytes each.

;@ module PATCHES
;@ stack 512
;@ start 1:0000
cpu 286
bits 16
;@ export HERE 3:0002

;@ segment 1 code
section s1 vstart=0
; each line: at what offset its bytes stand and how many there are, up to 0 bytes
        mov si, 0
next:   mov bx, [si]
        mov cx, [si+2]
        jcxz done
; CX bytes at DS:BX, in hexadecimal to DS:64
        mov di, 64
next_byte:
        mov al, [bx]
        shr al, 4
        call digit
        mov al, [bx]
        call digit
        mov byte [di], ' '
        inc di
        inc bx
        loop next_byte
        mov byte [di-1], 10
; from 64 up to DI
        sub di, 64
        push si
        push 1
        push ds
        push 64
        push di
        push ds
        push 96
        call 0:0FFFFh                   ;@+1 far DOSCALLS.138 DosWrite
        pop si
        add si, 4
        jmp short next
done:   push 1
        push 0
        call 0:0FFFFh                   ;@+1 far DOSCALLS.5 DosExit

; digit: the low four bits of AL as a digit at DS:DI
digit:  and al, 15
        add al, '0'
        cmp al, '9'
        jbe put
        add al, 7
put:    mov [di], al
        inc di
        ret

;@ segment 2 data auto size=98
section s2 vstart=0
        db 1Ch, 0, 2, 0                 ; the lines
        db 1Eh, 0, 2, 0
        db 20h, 0, 4, 0
        db 24h, 0, 4, 0
        db 28h, 0, 4, 0
        db 2Ch, 0, 8, 0
        times 4 db 0                    ; the end
        db 0FFh, 0FFh                   ;@+0 selector 3 a selector
        db 0FFh, 0FFh                   ;@+0 offset 3:0004 an offset
        db 0FFh, 0FFh, 0, 0             ;@+0 far 3:0004 a far pointer
        db 0FFh, 0FFh, 0, 0             ;@+0 far entry.1 an entry, by its ordinal
        db 0FFh, 0FFh, 0, 0             ;@+0 far DOSCALLS.DosExit an import
        db 30h, 0                       ;@+0 offset 3:0004 a chain of two places: the next one is 0030h
        db 5                            ;@+0 add-byte 3:0004 the low byte of an offset, added to 5
        db 0
        db 0FFh, 0FFh                   ; the end of the chain
        db 10h, 0                       ;@+0 add-offset 3:0004 an offset, added to 10h

;@ segment 3 data readonly
section s3 vstart=0
        db 1, 2, 3, 4, 5, 6             ; six bytes
