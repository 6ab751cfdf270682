; readonly: a write into read-only data.

;@ module READONLY
;@ stack 512
;@ start 1:0000
cpu 286
bits 16

;@ segment 1 code
section s1 vstart=0
        mov ax, 0FFFFh                  ;@+1 selector 3
        mov es, ax
        mov al, es:[0]                  ; it may be read
        mov byte es:[0], 42h            ; and not be written

;@ segment 2 data auto size=16
section s2 vstart=0

;@ segment 3 data readonly
section s3 vstart=0
        db 41h
