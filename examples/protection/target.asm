; target: a service is to write into code.

;@ module TARGET
;@ stack 512
;@ start 1:0000
cpu 286
bits 16

;@ segment 1 code
section s1 vstart=0
        push cs
        push 0                          ; the six bytes of DosGetPID
        call 0:0FFFFh                   ;@+1 far DOSCALLS.94 DosGetPID

;@ segment 2 data auto size=16
section s2 vstart=0
