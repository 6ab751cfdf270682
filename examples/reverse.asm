; reverse: reads its input into a segment that grows with it, and writes it from its last byte to its first.

;@ module REVERSE
;@ stack 512
;@ start 1:0000
cpu 286
bits 16

;@ segment 1 code
section s1 vstart=0
        push 256                        ; how long the segment is at first
        push ds                         ; where its selector goes
        push 0
        push 0                          ; its flags
        call 0:0FFFFh                   ;@+1 far DOSCALLS.34 DosAllocSeg
        or ax, ax
        jnz L0044
        mov es, [0000h]
        xor di, di
; the next piece of the input
L0017:  push 0                          ; the standard input
        push es                         ; after what there is already
        push di
        push 256                        ; how many bytes at most
        push ds                         ; where the count of bytes read goes
        push 2
        call 0:0FFFFh                   ;@+1 far DOSCALLS.137 DosRead
        or ax, ax                       ; AX is the error number
        jnz L0044
        mov cx, [0002h]
        jcxz L004C                      ; no bytes: the input is over
; and room after it for one more
        add di, cx
        mov ax, di
        add ax, 256
        jc L004C                        ; a segment has at most 65,536 bytes
        push ax                         ; its length from here on
        push es                         ; the segment
        call 0:0FFFFh                   ;@+1 far DOSCALLS.38 DosReallocSeg
        or ax, ax
        jz L0017
; the end
L0044:  push 1
        push ax                         ; the exit code is the error number
        call 0:0FFFFh                   ;@+1 far DOSCALLS.5 DosExit
; the first byte and the last, then those between them: SI and DI meet in the middle
L004C:  mov cx, di
        xor si, si
L0050:  cmp si, di
        jae L0061
        dec di
        mov al, es:[si]
        xchg al, es:[di]
        mov es:[si], al
        inc si
        jmp short L0050
; and out
L0061:  push 1                          ; the standard output
        push es
        push 0
        push cx
        push ds
        push 4                          ; where the count of bytes written goes
        call 0:0FFFFh                   ;@+1 far DOSCALLS.138 DosWrite
        push es                         ; ES becomes 0 with that
        call 0:0FFFFh                   ;@+1 far DOSCALLS.39 DosFreeSeg
        jmp short L0044

; the selector, the count read and the count written; none of it is in the file
;@ segment 2 data auto size=6
section s2 vstart=0
