; cross: takes two semaphores, adds 1 to a counter behind them, and gives both back. Process 2 takes them in the other order.

;@ module CROSS
;@ stack 512
;@ start 1:0000
cpu 286
bits 16

;@ segment 1 code
section s1 vstart=0
        mov ax, 0FFFFh                  ;@+1 selector 3
        mov es, ax
        push ds                         ; which process is this?
        push 0
        call 0:0FFFFh                   ;@+1 far DOSCALLS.94 DosGetPID
        mov si, 0                       ; the first semaphore
        mov di, 4                       ; the second one
        cmp word [0], 2
        jne take
        xchg si, di
take:   push es
        push si
        push -1                         ; wait until it is clear
        push -1
        call 0:0FFFFh                   ;@+1 far DOSCALLS.140 DosSemRequest
        push es
        push di
        push -1
        push -1
        call 0:0FFFFh                   ;@+1 far DOSCALLS.140 DosSemRequest
        inc word es:[8]
        push es
        push di
        call 0:0FFFFh                   ;@+1 far DOSCALLS.141 DosSemClear
        push es
        push si
        call 0:0FFFFh                   ;@+1 far DOSCALLS.141 DosSemClear
        push 1
        push 0
        call 0:0FFFFh                   ;@+1 far DOSCALLS.5 DosExit

; the numbers of the process, of its thread and of the process that made it
;@ segment 2 data auto size=6
section s2 vstart=0

; two semaphores of four bytes and the counter, one for all processes
;@ segment 3 data shared size=10
section s3 vstart=0
