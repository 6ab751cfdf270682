; segments: three segments of code that call each other, and a table in a data segment of its own. It writes three lines.

;@ module SEGMENTS
;@ stack 512
;@ start 1:0000
cpu 286
bits 16

; each text of the table, by its offset there; an offset of 0 ends the table
;@ segment 1 code
section s1 vstart=0
        mov ax, 0FFFFh                  ;@+1 selector 5
        mov es, ax
        db 33h, 0DBh                    ; xor bx, bx
L0007:  mov si, es:[bx]
        db 0Bh, 0F6h                    ; or si, si
        jz L0019
        push bx
        call 0:0FFFFh                   ;@+1 far 2:0000 print
        pop bx
        inc bx
        inc bx
        jmp short L0007
L0019:  push 1
        push 0
        call 0:0FFFFh                   ;@+1 far DOSCALLS.DosExit DosExit

; print: writes the text at ES:SI
;@ segment 2 code
section s2 vstart=0
        call 0:0FFFFh                   ;@+1 far 3:0000 length
        push 1
        push es
        push si
        push cx
        push ds
        push strict word 0
        call 0:0FFFFh                   ;@+1 far DOSCALLS.DosWrite DosWrite
        retf

; length: CX becomes the length of the text at ES:SI, which ends with a zero
;@ segment 3 code
section s3 vstart=0
        push si
        db 33h, 0C9h                    ; xor cx, cx
L0003:  cmp byte es:[si], 0
        jz L000D
        inc si
        inc cx
        jmp short L0003
L000D:  pop si
        retf

; the count of bytes written, and the stack
;@ segment 4 data auto size=16
section s4 vstart=0

; the table, and its texts
;@ segment 5 data readonly
section s5 vstart=0
        db 8, 0                         ; one
        db 13, 0                        ; two
        db 12h, 0                       ; three
        db 0, 0                         ; the end
        db 'one', 10, 0
        db 'two', 10, 0
        db 'three', 10, 0
