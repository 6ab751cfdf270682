; across: makes a run of segments of 65,536 and 16 bytes, writes across the border between them, and lets the run shrink and grow.

;@ module ACROSS
;@ stack 512
;@ start 1:0000
cpu 286
bits 16

;@ segment 1 code
section s1 vstart=0
        push 1                          ; one full segment
        push 16                         ; and one of 16 bytes
        push ds                         ; where the first selector goes
        push 0
        push 3                          ; three selectors are kept
        push 0                          ; flags
        call 0:0FFFFh                   ;@+1 far DOSCALLS.DosAllocHuge DosAllocHuge
        push ds                         ; where the shift goes
        push 2
        call 0:0FFFFh                   ;@+1 far DOSCALLS.DosGetHugeShift DosGetHugeShift
        mov es, [0]
        mov byte es:[0FFFFh], 'h'       ; the last byte of the first segment
        mov ax, 1
        mov cx, [2]
        shl ax, cl                      ; from one selector to the next
        add ax, [0]
        mov es, ax
        mov word es:[0], 0A69h          ; the first bytes of the second one
        push 1                          ; the standard output
        push word [0]                   ; the byte before the border
        push 0FFFFh
        push 1
        push ds
        push 4
        call 0:0FFFFh                   ;@+1 far DOSCALLS.DosWrite DosWrite
        push 1
        push es                         ; and the two after it
        push 0
        push 2
        push ds
        push 4
        call 0:0FFFFh                   ;@+1 far DOSCALLS.DosWrite DosWrite
        push 1                          ; one full segment alone
        push 0
        push word [0]
        call 0:0FFFFh                   ;@+1 far DOSCALLS.DosReallocHuge DosReallocHuge
        push 3                          ; all that is kept
        push 0
        push word [0]
        call 0:0FFFFh                   ;@+1 far DOSCALLS.DosReallocHuge DosReallocHuge
        push word [0]                   ; the run is freed as a whole
        call 0:0FFFFh                   ;@+1 far DOSCALLS.DosFreeSeg DosFreeSeg
        push 1
        push 0
        call 0:0FFFFh                   ;@+1 far DOSCALLS.DosExit DosExit

; the first selector, the shift, the count of bytes written, and the stack
;@ segment 2 data auto size=16
section s2 vstart=0
