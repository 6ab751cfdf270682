; counter: a library that counts its calls, in data that each process has for itself and in data that is one for all.

;@ module COUNTER library
;@ export NEXT 1:0000
;@ export NEXTALL 1:000F
;@ export COUNT 3:0000

; next: AX becomes how often this process has called it
;@ segment 1 code
section s1 vstart=0
        push ds
        mov ax, 0FFFFh                  ;@+1 selector 2
        mov ds, ax
        inc word [0000h]
        mov ax, [0000h]
        pop ds
        retf
; nextall: AX becomes how often all processes have called it
        push ds
        mov ax, 0FFFFh                  ;@+1 selector 3
        mov ds, ax
        inc word [0000h]
        mov ax, [0000h]
        pop ds
        retf

; the count of each process
;@ segment 2 data size=16
section s2 vstart=0

; the count of all
;@ segment 3 data shared size=16
section s3 vstart=0
