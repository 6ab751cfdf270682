; startup: begins as the start-up code of C compilers does. It asks for the version, the machine's mode, what the handles are and the
; environment, and sets its vectors, before its main part writes what it was told. DosExit is the machine's; all other calls of DOSCALLS are
; those of a library that answers for it.

;@ module STARTUP
;@ stack 512
;@ start 1:0000
cpu 286
bits 16

;@ segment 1 code
section s1 vstart=0
        push ds
        push strict word version
        call 0:0FFFFh                   ;@+1 far DOSCALLS.92 DosGetVersion
        push ds
        push strict word mode
        call 0:0FFFFh                   ;@+1 far DOSCALLS.49 DosGetMachineMode
        xor si, si
.handle:
        push si
        mov bx, si
        shl bx, 1
        add bx, types
        push ds
        push bx
        push ds
        push strict word attribute
        call 0:0FFFFh                   ;@+1 far DOSCALLS.77 DosQHandType
        inc si
        cmp si, 3
        jb .handle
        push 0                          ; division by zero
        push cs
        push strict word 0
        push ds
        push strict word previous
        call 0:0FFFFh                   ;@+1 far DOSCALLS.89 DosSetVec
        push ds
        push strict word environment
        push ds
        push strict word command
        call 0:0FFFFh                   ;@+1 far DOSCALLS.DosGetEnv DosGetEnv

; the main part: numbers go into the text, which is written
        mov al, [version+1]
        aam
        xchg al, ah
        add ax, 3030h
        mov [text.version], ax
        mov al, [version]
        aam
        xchg al, ah
        add ax, 3030h
        mov [text.version+3], ax
        mov al, [mode]
        add al, '0'
        mov [text.mode], al
        mov al, [types]
        add al, '0'
        mov [text.types], al
        mov al, [types+2]
        add al, '0'
        mov [text.types+2], al
        mov al, [types+4]
        add al, '0'
        mov [text.types+4], al
        mov ax, 0FFFFh                  ;@+1 offset DOSCALLS.135 DosHugeShift
        add al, '0'
        mov [text.shift], al
        mov ax, 0FFFFh                  ;@+1 offset DOSCALLS.DOSHUGEINCR
        add al, '0'
        mov [text.apart], al
        push ds
        push strict word text
        push strict word text.end-text
        push 0
        call 0:0FFFFh                   ;@+1 far VIOCALLS.19 VioWrtTTY
; the name of the program, which begins the command line
        les di, [command]               ; its offset, and the selector after it
        mov bx, di
        xor al, al
        mov cx, 0FFFFh
        cld
        repne scasb
        sub di, bx
        dec di
        push es
        push bx
        push di
        push 0
        call 0:0FFFFh                   ;@+1 far VIOCALLS.19 VioWrtTTY
        push ds
        push strict word text.line
        push 1
        push 0
        call 0:0FFFFh                   ;@+1 far VIOCALLS.19 VioWrtTTY
        push 1                          ; end the whole process
        push 0                          ; its exit code
        call 0:0FFFFh                   ;@+1 far DOSCALLS.5 DosExit

;@ segment 2 data auto
section s2 vstart=0
version dw 0
mode    db 0, 0
types   dw 0, 0, 0
attribute dw 0
previous dw 0, 0
command dw 0
environment dw 0
text    db 'version '
.version db '??.??, mode '
.mode   db '?, handles '
.types  db '? ? ?, huge selectors '
.apart  db '? apart, shift '
.shift  db '?, command line of '
.end:
.line   db 10
