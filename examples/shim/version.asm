; version: asks for the version, and ends with its number after the point.

;@ module VERSION
;@ stack 512
;@ start 1:0000
cpu 286
bits 16

;@ segment 1 code
section s1 vstart=0
        push ds
        push strict word version
        call 0:0FFFFh                   ;@+1 far DOSCALLS.92 DosGetVersion
        push 1                          ; end the whole process
        mov al, [version]
        xor ah, ah
        push ax                         ; its exit code
        call 0:0FFFFh                   ;@+1 far DOSCALLS.DosExit DosExit

;@ segment 2 data auto
section s2 vstart=0
version dw 0
